"""What the definitions of the crates are, and which others each names.

A definition is one of specs/, a struct, an enum or a trait that src/ declares, or the contract of a function. In a file of specs/ it
begins at its head: a keyword and a name, or after an empty line a name with its type. What follows belongs to it up to an empty line
or the next head, comments between two clauses too; a line that belongs to none is an error. What a definition names is found by the
imports of its file; a name that a clause binds itself, as an argument or a variable, is no reference in that clause.
"""
import functools
import os
import re
import sys

TOP = os.path.dirname(os.path.dirname(os.path.abspath(__file__)))
NAME = r"[^\W\d][\w'?-]*"
HEAD = re.compile(rf"(?:(?:abbrev|unfoldable)(?: pub)? (?P<word>\S+)|(?:pub )?(?:record|data) (?P<type>{NAME})\b.* : Type\b)")
PLAIN = re.compile(rf"(?:pub )?(?P<name>{NAME}) : ")
PATH = re.compile(r"use ((?:\w+\.)+)(?:\{([^}]*)\}|(\w+))(?: as (\w+))?")


def read(crate, file):
    with open(os.path.join(TOP, "crates", crate, file), encoding="utf-8") as it:
        return it.read()


def has(crate, file):
    return os.path.isfile(os.path.join(TOP, "crates", crate, file))


def without_comments(lines):
    return [re.sub(r"(^|\s)(--|//).*", "", line) for line in lines]


class Definition:
    """Where it stands, its name, its lines with the comment above them, and the heads of the modules that it stands in."""

    def __init__(self, crate, file, name, lines, within=()):
        self.crate, self.file, self.name, self.lines, self.within = crate, file, name, lines, list(within)

    def key(self):
        return self.crate, self.file, self.name

    def text(self):
        """Its lines as they are shown, with the heads of its modules."""
        return "\n".join([*self.within, *self.lines])

    def comment(self):
        """What the comment above it says, on one line."""
        said = []
        for line in self.lines:
            if not re.match(r"\s*(--|//)", line):
                break
            said.append(re.sub(r"^\s*(--|///?)\s?", "", line))
        return " ".join(said)

    def parts(self):
        """The code of its modules' heads, of its signature and of each clause, each by itself."""
        parts, name = ["\n".join(self.within)], rf"\s*\(?{re.escape(self.name)}(?![\w'?-])"
        for line in without_comments(self.lines):
            if self.file.endswith(".antt") and re.match(name, line):
                parts.append(line)
            else:
                parts[-1] += "\n" + line
        return parts


def bound_in(part, name):
    """The names that a part binds: arguments, fields, and variables of types, functions and lets."""
    found = set()
    if re.match(rf"\s*{re.escape(name)}(?![\w'?-])(?! :)", part):
        found.update(re.findall(rf"(?<![\w.]){NAME}(?![\w.])", before_equals(part)))
    for names in re.findall(r"λ ([^.]*)\.", part) + re.findall(r"[({]([^(){}:]*) : ", part) + re.findall(r"\blet ([^=:]*)", part):
        found.update(re.findall(NAME, names))
    if re.match(r"\s*(pub )?record ", part):
        found.update(re.findall(rf"^\s+(?:pub )?({NAME}) : ", part, re.MULTILINE))
    return found


def before_equals(clause):
    """The pattern of a clause: all before the first `=` that is in no brackets."""
    depth = 0
    for at, letter in enumerate(clause):
        depth += (letter in "({[") - (letter in ")}]")
        if letter == "=" and not depth and clause[at - 1] == " " and clause[at + 1 : at + 2] in (" ", "\n", ""):
            return clause[:at]
    return ""


class File:
    """A file's definitions, and which names its imports bring in."""

    def __init__(self, crate, file):
        self.crate, self.file = crate, file
        text = read(crate, file)
        self.imports, self.modules, self.definitions, self.constructors = {}, {}, {}, {}
        for path, names, last, alias in PATH.findall(text):
            self.add_import(path.rstrip("."), names, last, alias)
        if file.endswith(".antt"):
            self.read_definitions(text.split("\n"))
        else:
            self.read_items(text.split("\n"))
        for it in self.definitions.values():
            if any(re.match(r"\s*(pub )?data ", line) for line in it.lines):
                self.constructors.update({name: it for line in it.lines for name in re.findall(rf"^\s+({NAME}) : ", line)})

    def get(self, name):
        """The definition of this name, or the data of which it is a constructor."""
        return self.definitions.get(name) or self.constructors.get(name)

    def add_import(self, path, names, last, alias):
        parts = path.split(".")
        if parts[0] != "Rattle" or len(parts) < 3 or not os.path.isdir(os.path.join(TOP, "crates", parts[1])):
            return
        if not names:
            # A module under a name of its own, or by its last word.
            self.modules[alias or last] = (parts[1], [*parts[2:], last])
            return
        for name in re.split(r",\s*", names.strip()):
            words = name.split(" as ")
            if words[0]:
                self.imports[words[-1]] = (parts[1], parts[2:], words[0])

    def read_definitions(self, lines):
        comment, last, modules, in_head = [], None, [], False
        for number, line in enumerate(lines, 1):
            bare, indent = line.strip(), len(line) - len(line.lstrip())
            if in_head:
                modules[-1][1].append(line)
                in_head = not bare.endswith("where")
            elif not bare or bare.startswith(("use ", "pub use ", "pub mod ", "mod ")):
                comment, last = [], None
            elif bare.startswith("module _"):
                modules = [*(it for it in modules if it[0] < indent), (indent, [line])]
                comment, last, in_head = [], None, not bare.endswith("where")
            elif bare.startswith("--"):
                (comment if last is None else last.lines).append(line)
            elif found := HEAD.match(bare) or (last is None and PLAIN.match(bare)):
                modules = [it for it in modules if it[0] < indent]
                name = next(it for it in found.groups() if it)
                last = Definition(self.crate, self.file, name, [*comment, line], [it for _, head in modules for it in head])
                self.definitions[name], comment = last, []
            elif last is not None:
                last.lines.append(line)
            else:
                sys.exit(f"crates/{self.crate}/{self.file}:{number}: the line belongs to no definition: {bare}")

    def read_items(self, lines):
        """Structs, enums and traits with what stands above them, and a struct's model."""
        above, at = [], 0
        while at < len(lines):
            line = lines[at]
            if re.match(r"\s*(///|#\[)", line):
                above.append(line)
            elif found := re.match(r"(?:pub(?:\([a-z]+\))? )?(struct|enum|trait) (\w+)", line):
                end = at
                if not line.rstrip().endswith(";"):
                    while lines[end] != "}" and not (end == at and line.rstrip().endswith("}")):
                        end += 1
                body = lines[at : end + 1]
                if found[1] == "trait":
                    body = ghosts(body)
                self.definitions[found[2]] = Definition(self.crate, self.file, found[2], [*(it for it in above if "#[" not in it), *body])
                above, at = [], end
            elif (found := re.match(r"impl.* Model for (\w+)", line)) and found[1] in self.definitions:
                end = at
                while lines[end] != "}":
                    end += 1
                said = [it for it in lines[at : end + 1] if re.match(r"\s*ghost (Value|view|invariant) ", it)]
                if said:
                    self.definitions[found[1]].lines += ["", f"// What a contract sees of a {found[1]}:", *(it.strip() for it in said)]
                at = end
            else:
                above = []
            at += 1

    def contract(self, name):
        """The head of a function, `NAME` or `TYPE::NAME`: its comment, its parameters and its clauses."""
        owner, _, last = name.rpartition("::")
        lines = read(self.crate, self.file).split("\n")
        begin = next(i for i, it in enumerate(lines) if re.match(rf"impl(<.*>)? {owner}\b.* \{{$", it)) if owner else 0
        at = next(i for i, it in enumerate(lines) if i >= begin and re.match(rf"\s*pub fn {last}\b", it))
        end = next(i for i, it in enumerate(lines) if i >= at and it.strip() in ("{", "{}"))
        first = at
        while lines[first - 1].strip().startswith("///"):
            first -= 1
        return Definition(self.crate, self.file, name, lines[first:end], [lines[begin]] if owner else [])


def ghosts(body):
    """A trait's head, associated types and ghost members, with the comments above them."""
    kept, above = [body[0]], []
    for line in body[1:-1]:
        if re.match(r"\s*//(?!/)", line):
            above.append(line)
        elif re.match(r"    (type|ghost) ", line):
            kept += [*above, line]
            above = []
        else:
            above = []
    return [*kept, "}"]


@functools.cache
def file_of(crate, file):
    return File(crate, file)


def place(crate, path):
    """The file of a module's path, and what is left of the path behind it."""
    if path[:2] == ["specs", "declared"]:
        rest = path[2:]
        for count in range(len(rest), 0, -1):
            for file in ("src/" + "/".join(rest[:count]) + ".rt", "src/" + "/".join(rest[:count]) + "/mod.rt"):
                if has(crate, file):
                    return file, rest[count:]
        return ("src/lib.rt" if has(crate, "src/lib.rt") else "src/main.rt"), rest
    for count in range(len(path), 0, -1):
        if has(crate, "/".join(path[:count]) + ".antt"):
            return "/".join(path[:count]) + ".antt", path[count:]
    return None, path


def named(crate, path, name):
    """The definition that a path names: a name of specs/, or a type of src/ by itself, its variants or its ghosts."""
    file, rest = place(crate, path)
    if file is None:
        return None
    return file_of(crate, file).get(rest[0] if rest else name)


def references(it):
    """The definitions that one names, in the order in which it does."""
    file, seen = file_of(it.crate, it.file), {}
    for part in it.parts():
        bound = bound_in(part, it.name)
        # A field's name in a record that is made is no reference.
        text = re.sub(rf"([{{;]\s*){NAME}(?=\s*=\s)", r"\1", part)
        for word in re.findall(rf"(?<![\w.)}}]){NAME}(?:\.{NAME})*", text):
            first, *more = word.split(".")
            if first in file.modules and more:
                found = [named(*file.modules[first], more[0])]
            elif first in bound:
                found = []
            elif file.get(first):
                found = [file.get(first)]
            else:
                # In a file of src/ a word may be a type there and another definition in a clause.
                found = [named(*file.imports[first]) if first in file.imports else None, declared(file, first)]
            seen.update({low.key(): low for low in found if low is not None and low.key() != it.key()})
    return list(seen.values())


def declared(file, name):
    """A type that a file of src/ names by its Rust imports."""
    if not file.file.endswith(".rt"):
        return None
    for path, names, single in re.findall(r"^use (?:(\w+(?:::\w+)*)::)?(?:\{([^}]*)\}|(\w+));", read(file.crate, file.file), re.MULTILINE):
        if name in re.split(r",\s*", names or single):
            parts = path.split("::") if path else []
            if parts and parts[0] == "crate":
                return named(file.crate, ["specs", "declared", *parts[1:]], name) if len(parts) > 1 else None
            if parts and os.path.isdir(os.path.join(TOP, "crates", parts[0])):
                return exported(parts[0], name)
    return None


@functools.cache
def exported(crate, name):
    """The type of this name that a crate declares."""
    folder = os.path.join(TOP, "crates", crate, "src")
    for at, _folders, names in sorted(os.walk(folder)):
        for it in sorted(names):
            if it.endswith(".rt"):
                found = file_of(crate, os.path.relpath(os.path.join(at, it), os.path.join(TOP, "crates", crate))).definitions.get(name)
                if found:
                    return found
    return None
