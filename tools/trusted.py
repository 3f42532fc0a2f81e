"""What of the toolchain's kit the definitions and the proofs rest on, counted.

Words: the definitions of the kit that the pages of docs/theorem use, by the imports of their files, and all that those name in turn, in
the kit's own files: its crates' specs/, the types that their src/ declares, and the logic's libraries below them. What is built into the
prover, as ℕ, is no definition of a file, and isn't counted.

Contracts: all functions of the kit's crates that are used which have clauses, with the count of these. That is more than the proofs rest
on, since the code calls a part of them.

Calls: the functions of the kit that the code of the crates calls, each with its contract, and the functions in C whose contracts nobody
proves. That is in what the prover wrote of each crate (out/rlib/*/toolchain/checked.a), so it is counted where crates are proved.
"""
import functools
import glob
import os
import re
import shutil

import toolbox
from definitions import TOP

# The kit's crates that the code uses, std by its parts. What tests and times alone use isn't among them.
STD = ("core", "std", "std_alloc", "std_collections", "std_heap", "std_io", "io", "libc", "os")
CRATES = ("atomic_table", "bytes", "byteorder", "crossbeam_utils", "hex", "itoa", "memchr", "slab", "smallvec", "thiserror", "uuid")
WORD = r"[^\W\d][\w'?-]*"
KEYWORDS = ("pub", "abbrev", "unfoldable", "record", "data")
USE = re.compile(r"\buse (\w+(?:\.\w+)*?)(?:\.\{([^}]*)\}| as (\w+)|(?=;|\n|$))")


@functools.cache
def kit():
    """The kit's folder of sources, or None where there is no kit."""
    rt = shutil.which("rt")
    place = os.path.join(os.path.dirname(os.path.dirname(os.path.realpath(rt))), "rattle") if rt else ""
    return place if os.path.isdir(os.path.join(place, "core/specs")) else None


def folder_of(parts):
    """The folder that a module's path begins at, and what is left of the path."""
    if parts[0] == "Rattle":
        return os.path.join(kit(), parts[1]), parts[2:]
    return os.path.join(kit(), {"lib": "logic/Lib", "mathlib": "antt/port/mathlib/src"}.get(parts[0], "none")), parts[1:]


def file_of(path):
    """The file of a module, by its own name or by one under which its crate passes it on; None where it is built in or generated."""
    folder, rest = folder_of(path.split("."))
    if rest[:2] == ["specs", "declared"]:
        for count in range(len(rest), 2, -1):
            for end in (".rt", "/mod.rt"):
                if os.path.isfile(place := os.path.join(folder, "src", *rest[2:count]) + end):
                    return place
        place = os.path.join(folder, "src/lib.rt")
        return place if os.path.isfile(place) else None
    if os.path.isfile(place := os.path.join(folder, *rest) + ".antt"):
        return place
    if rest[0] == "specs" and len(rest) > 1 and os.path.isfile(lib := os.path.join(folder, "specs/Lib.antt")):
        for other in re.findall(r"^pub use (\S+)$", text_of(lib), re.MULTILINE):
            if other.split(".")[-1] == rest[1]:
                return file_of(".".join([other, *rest[2:]]))
    return None


@functools.cache
def text_of(place):
    with open(place, encoding="utf-8") as it:
        return it.read()


def without_comments(text):
    return re.sub(r"(^|\s)(--|//).*", r"\1", text)


@functools.cache
def imports_of(place):
    """What each word of a file may stand for, of what isn't a crate here: the module and the name there."""
    found = {}
    for path, names, _alias in USE.findall(text_of(place)):
        for name in re.split(r",\s*", names):
            name, _, other = name.strip().partition(" as ")
            if name and not path.startswith("Rattle.vg"):
                found[other or name] = (path, name)
    return found


@functools.cache
def read_file(place):
    """The definitions of a file of the kit: of a name its lines. A constructor has those of its data."""
    found = {}
    if place.endswith(".rt"):
        for it in re.finditer(r"^(?:pub )?(?:struct|enum|trait) (\w+)[^\n]*?(?:;|\{\}|\{\n.*?^\})$", text_of(place), re.MULTILINE | re.DOTALL):
            found[it[1]] = it[0]
        return found
    for text in re.split(r"\n\s*\n", text_of(place)):
        text = re.sub(r"^\s*module _.*? where$", "", text, count=1, flags=re.MULTILINE | re.DOTALL)
        bare = [line for line in without_comments(text).split("\n") if line.strip() and not re.match(r"\s*(pub )?(use|mod|infix\w*) ", line)]
        words = [word for word in (bare[0].split() if bare else []) if word not in KEYWORDS]
        if words:
            found[words[0]] = text
            if "data" in bare[0].split()[:2]:
                found.update({line.split()[0]: text for line in bare[1:]})
    return found


def resolved(path, name):
    """Where a name is defined that a module has or passes on: file and name."""
    place = file_of(path)
    if place is None:
        return None
    if place.endswith(".rt"):
        types = [part for part in path.split(".") if part[0].isupper() and not part.startswith("The")]
        name = name if name in read_file(place) else types[-1] if types else name
    if name in read_file(place):
        return place, name
    return resolved(*imports_of(place)[name]) if name in imports_of(place) else None


def used(name, text, words):
    """Whether a text uses a name: a word, or an operator by all of its parts."""
    if "◌" not in name:
        return name in words
    return all(part in text for part in name.split("◌") if part)


def named(text, place):
    """The definitions of the kit that a text of this file names."""
    text = without_comments(text)
    words, found = set(re.findall(WORD, text)), {}
    for name, (path, there) in imports_of(place).items():
        if used(name, text, words):
            found[resolved(path, there)] = None
    if place.startswith(kit()):
        found.update({(place, name): None for name in read_file(place) if used(name, text, words)})
    return [it for it in found if it]


def words_of(shown):
    """The definitions of the kit that the pages' definitions use, and all that these reach, each by its lines."""
    first = {}
    for it in shown:
        first.update(dict.fromkeys(named("\n".join(it.lines), os.path.join(TOP, "crates", it.crate, it.file))))
    met, todo = set(), list(first)
    while todo:
        place, name = todo.pop()
        text = read_file(place)[name]
        if (place, text) not in met:
            met.add((place, text))
            todo += named(text, place)
    return len({(place, read_file(place)[name]) for place, name in first}), len(met), sum(len([line for line in text.split("\n") if line.strip()]) for _, text in met)


def contracts():
    """How many functions of the kit's crates have a clause, how many clauses these are, and how many functions in C are declared."""
    functions = clauses = foreign = 0
    for crate in STD + CRATES:
        for path in glob.glob(os.path.join(kit(), crate, "src/**/*.rt"), recursive=True):
            text = without_comments(text_of(path))
            for head in re.split(r"^\s*(?:pub(?:\([a-z]+\))? )?(?:const )?(?:safe )?(?:unsafe )?fn ", text, flags=re.MULTILINE)[1:]:
                count = len(re.findall(r"^\s*(?:requires|ensures)\b", head, re.MULTILINE))
                functions, clauses = functions + (count > 0), clauses + count
            foreign += sum(len(re.findall(r"\bfn ", block)) for block in re.findall(r'extern "C" \{(.*?)^\}', text, re.MULTILINE | re.DOTALL))
    return functions, clauses, foreign


def calls(folder):
    """Of the crates that are proved under a folder: which these are, the kit's functions that they call, by crate and name, and the
    functions in C on whose contracts they rest."""
    crates, functions, assumed = set(), set(), set()
    for part in toolbox.modules_proved(folder):
        if module := re.search(rb"--@ module Rattle-(vg\w*)", part):
            crates.add(module[1].decode())
            functions.update((crate.decode(), name.decode()) for crate, name in re.findall(rb"Rattle-(?!vg)(\w+)-proofs\.([^\x00-\x20]+?)\.Code\.code", part))
            for line in re.findall(rb"--@ rests-on (.*)", part):
                assumed.update(name.decode() for name in re.findall(rb'"Rattle-\w+-proofs\.([^"]*)\.Met"', line))
    return crates, functions, assumed
