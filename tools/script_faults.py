"""Reads a script for its first fault, and says what is wrong in a sentence: tools/why tells it, and tools/hunt lays what the program says beside
the line and the kind.

It is written from the grammar of scripts in README.md (the table of lines) and docs/DECISIONS.md (The grammar of scripts), without a
look at the crates or at tools/check-history, whose reader tells a fault's line and not its kind. `first` gives the line, the kind and the
sentence of the first fault, or None. The rules that it follows:

  - A text has at most 16,777,216 bytes. Its lines end with byte 10, the last one perhaps without.
  - Kinds in rising order: `text` (a byte that isn't 32 to 126, or more than 16,384 of them), `word` (an unknown word, a wrong count of words,
    a line in a wrong place), `number` (how a number or HEX is spelled), `limit`, `name`. A line has the least of its kinds, and the
    fault is that of the first line that has one.
  - A text without a display has the fault `word` behind its last line.
  - A line of calls that waits for itself, by steps, has the fault `wait cycle`, which is looked for where there is no other; the first
    such `await` or `import` line has it.

A word of the script that comes later is a line more in `LINES`, or in `BODIES`.
"""
import collections
import difflib
import functools
import re

from toolbox import listed

MOST_BYTES = 16_777_216
MOST_LINE = 16_384
MOST_LINES = 100_000
MOST_DISPLAYS = 16
MOST_CLIENTS = 32
MOST_WIDTH, MOST_HEIGHT = 1920, 1080
MOST_CONTEXTS = 255
MOST_HEX = 4_096
STORED = 8_294_400
MOST_PAGES = 15_000_000  # of 4,096 bytes, that all buffers of a script ask for
TEXT, WORD, NUMBER, LIMIT, NAME, CYCLE = range(1, 7)
KINDS = {TEXT: "text", WORD: "word", NUMBER: "number", LIMIT: "limit", NAME: "name", CYCLE: "wait cycle"}
TOO_LONG = "too long"

U32 = "0..4294967295"
FORMAT_NAMES = {1: "BGRA", 2: "BGRX", 3: "ARGB", 4: "XRGB", 67: "RGBA", 68: "XBGR", 121: "ABGR", 134: "RGBX"}
FORMATS = tuple(FORMAT_NAMES)
FEATURES = ("edid", "uuid", "blob", "context")
QUEUES = ("control", "cursor")
SHAPES = ["plain", "indirect", "mixed", *(f"pieces{n}" for n in range(2, 9))]
SHAPES += ["index", "loop", "nested", "nextindirect", "tablelength", "order", "range"]

# What stands behind each word of a client: what it is called, and its kind. A..B is a number in a range, `scanout` one below the number of
# displays, `place` one that may be negative; `buffer` and `context` use a name, `new-` and `end-` define one and end it; `token` and `fence`
# use a label, `new-` defines it.
RECTANGLE = f"X={U32} Y={U32} WIDTH={U32} HEIGHT={U32}"
SURFACE = f"SURFACEWIDTH={U32} SURFACEHEIGHT={U32} FORMAT={U32} STRIDE={U32} OFFSET={U32}"
LINES = {
    "info": "",
    "edid": f"SCANOUT={U32}",
    "buffer": f"NAME=new-buffer WIDTH=1..{MOST_WIDTH} HEIGHT=1..{MOST_HEIGHT} FORMAT=format",
    "blob": f"NAME=new-buffer SIZE=1..{STORED}",
    "store": f"NAME=buffer OFFSET=0..{STORED - 1} HEX=bytes TIMES=1..{STORED // 4}",
    "load": f"NAME=buffer OFFSET=0..{STORED - 1} LENGTH=1..1024",
    "send": f"NAME=buffer {RECTANGLE}",
    "flush": f"NAME=buffer {RECTANGLE}",
    "take": "SCANOUT=scanout",
    "drop": "SCANOUT=scanout",
    "hide": "SCANOUT=scanout",
    "show": f"SCANOUT=scanout NAME=buffer {RECTANGLE}",
    "showblob": f"SCANOUT=scanout NAME=buffer {RECTANGLE} {SURFACE}",
    "flip": "SCANOUT=scanout NAME=buffer",
    "cursor": f"SCANOUT=scanout NAME=buffer-or-none X=place Y=place HOTX={U32} HOTY={U32}",
    "move": "SCANOUT=scanout X=place Y=place",
    "context": "CONTEXT=new-context",
    "endcontext": "CONTEXT=end-context",
    "attach": "CONTEXT=context NAME=buffer",
    "detach": "CONTEXT=context NAME=buffer",
    "submit": "CONTEXT=context RING=0..63",
    "uuid": "NAME=buffer",
    "export": "NAME=buffer LABEL=new-token",
    "import": "LABEL=token NAME=new-buffer",
    "close": "NAME=end-buffer",
    "begin": "LABEL=new-fence TIMELINE=timeline BODY=body",  # and behind the body's word what that one has
    "await": "LABEL=fence",
    "raw": "QUEUE=queue ROOM=0..8192 SHAPE=shape HEX=request",
}
BODIES = ("info", "send", "flush", "submit")
HEAD = {"display": "WIDTH HEIGHT", "memory": "PAGES", "without": "FEATURE", "client": ""}
FORMS = {**HEAD, **LINES}
BEGINS = "a script begins with: display WIDTH HEIGHT"
NEAR = 0.65  # how alike a word is that may be meant
WELL_SPELLED = re.compile("[A-Za-z][A-Za-z0-9]{0,15}")

# What is wrong with a line, of its kind; and the first such fault of a text, with its line and the kind in words.
Fault = collections.namedtuple("Fault", "kind why")
First = collections.namedtuple("First", "line kind why")


def least(faults):
    """Of some faults, or None for each that isn't one, the first of the least kind."""
    return min(filter(None, faults), key=lambda fault: fault.kind, default=None)


# What is said of words


def short(word):
    return word if len(word) <= 40 else f"{word[:30]}.. ({len(word)} letters)"


def meant(word, known):
    """What is said behind a word that isn't known."""
    near = difflib.get_close_matches(word[:40].lower(), known, 1, NEAR)
    return f"; did you mean {near[0]}?" if near else ""


def plural(count, thing):
    return f"{count} {thing}{'' if count == 1 else 's'}"


@functools.cache
def names_of(form):
    return [part.partition("=")[0] for part in form.split()]


@functools.cache
def kinds_of(form):
    return [part.partition("=")[2] for part in form.split()]


def form_of(word, args):
    """What a word takes; where something is begun, behind it what that takes."""
    is_body = word == "begin" and len(args) > 2 and args[2] in BODIES
    return f"{FORMS[word]} {FORMS[args[2]]}" if is_body else FORMS[word]


def why_no_number(name, word):
    if name == "FORMAT":
        return f"a format is told by its number, not {short(word)}: {formats()}"
    if re.fullmatch("0[0-9]+", word):
        return f"{name} is {short(word)}, and numbers have no leading zeros"
    if re.fullmatch("[+-][0-9]+", word):
        return f"{name} is {short(word)}, and has no sign"
    if re.fullmatch("0[xX][0-9a-fA-F]+", word):
        return f"{name} is {short(word)}, and numbers are decimal"
    return f"{name} is a number, not {short(word) or 'nothing'}"


def formats():
    return ", ".join(f"{code} is {name}" for code, name in FORMAT_NAMES.items())


def why_no_hex(word):
    if word == "-":
        return "HEX of a store has at least one byte, and - stands for none"
    if re.fullmatch("0[xX][0-9a-fA-F]*", word):
        return f"HEX is {short(word)}, and has no 0x in front"
    if not re.fullmatch("[0-9a-fA-F]+", word):
        odd = re.search("[^0-9a-fA-F]", word)
        return f"HEX has digits from 0 to 9 and a to f, and {short(word)} has {odd[0]}"
    if word != word.lower():
        return f"HEX has small letters: {short(word.lower())}"
    return f"HEX has two digits a byte, and {short(word)} has {plural(len(word), 'digit')}, an odd count"


def why_no_text(line):
    if len(line) > MOST_LINE:
        return f"the line has {len(line)} bytes, and may have {MOST_LINE}"
    at = next(at for at, byte in enumerate(line) if not 32 <= byte <= 126)
    column = f"in column {at + 1}"
    if line[at] == 9:
        return f"a tab (byte 9) {column}: words are parted by spaces"
    if line[at] == 13:
        why = "the file has Windows line ends, and a line ends with byte 10 alone" if at + 1 == len(line) else "a line ends with byte 10 alone"
        return f"a carriage return (byte 13) {column}: {why}"
    if line.startswith(b"\xef\xbb\xbf"):
        return "the file begins with a byte order mark (bytes ef bb bf), and a script is ASCII text"
    return f"byte {line[at]} {column}: a script is ASCII text, of bytes 32 to 126"


def why_unknown(word, is_begun):
    if word == "vgpu-journal":
        return "this is a journal and no script: check, origins and upgrade read it"
    if word.lower() in FORMS:
        return f"there is no word {word}: words have small letters, {word.lower()}"
    begins = "" if is_begun else f"; {BEGINS}"
    return f"there is no word {short(word)}{meant(word, FORMS) or begins}"


def why_count(word, args):
    """What is said of a word with too few words behind it, or too many."""
    names = names_of(form_of(word, args))
    takes = f"{word} takes {' '.join(names) or 'nothing behind it'}"
    if any(arg.startswith("#") for arg in args):
        return f"{takes}; a comment stands on a line of its own"
    if len(args) < len(names):
        return f"{takes}; {listed(names[len(args):], 'and')} {'is' if len(args) + 1 == len(names) else 'are'} missing"
    return f"{takes}; {short(args[len(names)])} is one word too many" if len(args) == len(names) + 1 else f"{takes}, and not {len(args)} words"


def why_no_line(word, args):
    """What is said of words that make no line: too few or too many, or a `begin` of what can't be begun, or on no timeline."""
    if word == "begin" and len(args) > 2:
        if args[2] not in BODIES:
            return f"what can be begun is {listed(BODIES, 'or')}, not {short(args[2])}"
        if not is_timeline(args[1]):
            return f"TIMELINE is CONTEXT:RING, or - for none, not {short(args[1])}"
    return why_count(word, args)


# How words are spelled


def is_name(word):
    return WELL_SPELLED.fullmatch(word) is not None


def is_timeline(word):
    return word == "-" or ":" in word


def of_number(name, word, low, high):
    """The fault of a number, or None."""
    if not re.fullmatch("0|[1-9][0-9]*", word):
        return Fault(NUMBER, why_no_number(name, word))
    # One of many digits is past every limit.
    if len(word) < 12 and low <= int(word) <= high:
        return None
    return Fault(LIMIT, f"{name} is {short(word)}, and may be {low} to {high}")


def of_place(name, word):
    """Likewise of a cursor's position, which may be negative."""
    number = word[1:] if word.startswith("-") else word
    if word == "-0" or not re.fullmatch("0|[1-9][0-9]*", number):
        return Fault(NUMBER, f"{name} is 0, without a sign" if word == "-0" else why_no_number(name, word))
    if of_number(name, number, 0, 32_767 + word.startswith("-")):
        return Fault(LIMIT, f"{name} is {short(word)}, and may be -32768 to 32767")
    return None


def of_format(word):
    fault = of_number("FORMAT", word, 0, 2**32)
    if fault and fault.kind == NUMBER or not fault and int(word) in FORMATS:
        return fault
    return Fault(LIMIT, f"there is no format {short(word)}: {formats()}")


def of_bytes(word, may_lack):
    if word == "-" and may_lack:
        return None
    if len(word) % 2 or not re.fullmatch("[0-9a-f]+", word):
        return Fault(NUMBER, why_no_hex(word))
    return Fault(LIMIT, f"HEX has {len(word) // 2} bytes, and may have {MOST_HEX}") if len(word) > 2 * MOST_HEX else None


def of_choice(name, word, known):
    return None if word in known else Fault(WORD, f"{name} is {listed(known, 'or')}, not {short(word)}{meant(word, known)}")


def lines_of(text):
    lines = text.split(b"\n")
    return lines[:-1] if lines[-1] == b"" else lines


def words_of(line):
    """The words of a line: none of one that is skipped, and None where it is no text."""
    if len(line) > MOST_LINE or line.translate(None, bytes(range(32, 127))):
        return None
    words = [word for word in line.decode("ascii").split(" ") if word]
    return [] if words and words[0].startswith("#") else words


def parts_of(word, args):
    """The kinds of a line's words, or None where there is no such line."""
    if word not in LINES:
        return None
    if word == "begin" and (len(args) < 3 or args[2] not in BODIES or not is_timeline(args[1])):
        return None
    kinds = kinds_of(form_of(word, args))
    return kinds if len(kinds) == len(args) else None


# Names and labels


class Labels:
    """The labels that a text's lines define, also by faulty lines whose words are right."""

    def __init__(self, lines):
        self.first = {}  # by labels the number of the line that defines it first, and what it is
        for number, words in enumerate(lines, 1):
            if words and words[0] in ("export", "begin") and parts_of(words[0], words[1:]):
                label, kind = (words[2], "token") if words[0] == "export" else (words[1], "fence")
                self.first.setdefault(label, (number, kind))

    def fault(self, kind, label, number):
        """What is wrong with a label in a line, or None."""
        line, is_kind = self.first.get(label, (0, ""))
        if kind.startswith("new-"):
            return None if line == number else f"the label {label} is defined on line {line} already"
        if is_kind == kind:
            return None
        giver, user = ("exports", "import") if kind == "token" else ("begins", "await")
        if is_kind:
            other = "a begin line" if is_kind == "fence" else "an export line"
            return f"{label} is the label of {other}, line {line}, and {user} takes that of a line which {giver}"
        known = [name for name, (_, its) in self.first.items() if its == kind]
        return f"no line {giver} {label}{meant(label, known)}"


class Names:
    """The names of a client, and who ended them or has them beside it."""

    def __init__(self, lines):
        self.lines = lines  # of the whole text, by their words
        self.known = {}  # by names the kind, and the line that defines it
        self.ended = {}  # by names that are ended the line
        self.others = {}  # by names of the clients before: the client, and the line
        self.client = 0

    def next_client(self):
        self.others |= {name: (self.client, line) for name, (_, line) in self.known.items()}
        self.known, self.ended, self.client = {}, {}, self.client + 1

    def add(self, kind, name, number):
        if kind.startswith("new-"):
            self.known[name] = (kind.removeprefix("new-"), number)
        else:
            del self.known[name]
            self.ended[name] = number

    def fault(self, kind, name, number):
        """What is wrong with a name in a line, or None."""
        its, line = self.known.get(name, ("", 0))
        if kind.startswith("new-"):
            return f"{name} is defined on line {line} already" if its else None
        kind = kind.removeprefix("end-")
        if its == kind:
            return None
        if its:
            return f"{name}, of line {line}, is a {its}, and a {kind} is wanted"
        return self.why_unknown(kind, name, number)

    def why_unknown(self, kind, name, number):
        if name in self.ended:
            return f"{name} was {'closed' if kind == 'buffer' else 'ended'} on line {self.ended[name]}"
        below = self.defined_below(name, number)
        if below:
            return f"{name} is defined below, on line {below}, and may be used behind it"
        if name in self.others:
            client, line = self.others[name]
            return f"{name} is client {client}'s, of line {line}, and a name is its client's alone"
        known = [other for other, (its, _) in self.known.items() if its == kind]
        return f"{name} isn't defined on a line above{meant_name(name, known)}"

    def defined_below(self, name, number):
        """The line behind this one on which the same client defines the name, or None."""
        for below, words in enumerate(self.lines[number:], number + 1):
            if words and words[0] == "client":
                return None
            kinds = parts_of(words[0], words[1:]) if words else None
            if kinds and any(kind in ("new-buffer", "new-context") and word == name for kind, word in zip(kinds, words[1:])):
                return below
        return None


def meant_name(name, known):
    """Likewise of a name: one that has other capitals, or is alike."""
    near = [other for other in known if other.lower() == name.lower()] or difflib.get_close_matches(name, known, 1, NEAR)
    return f"; did you mean {near[0]}?" if near else ""


# The lines


def pages_of(word, args):
    """How many pages a line asks for, whose numbers are spelled and in their limits."""
    size = 4 * int(args[1]) * int(args[2]) if word == "buffer" else int(args[1]) if word == "blob" else 0
    return -(-size // 4096)


class Reader:
    """Goes through the lines, each of which is told by its words."""

    def __init__(self, lines):
        self.labels, self.names = Labels(lines), Names(lines)
        self.displays, self.features, self.memory = 0, {}, 0  # by features the line that leaves it out; the line of `memory`
        self.clients = []  # of each the lines of calls: their numbers and words
        self.first_client = 0  # its line
        self.calls, self.contexts = 0, 0  # how many; those that this client has made
        self.pages = 0  # that the lines of all clients ask for

    def fault(self, number, words):
        """The fault of the least kind of a line of words, or None; the line counts then."""
        if not words:
            return None
        word, *args = words
        if word not in FORMS:
            return Fault(WORD, why_unknown(word, self.displays > 0))
        if word in HEAD:
            return self.of_head(number, word, args)
        if not self.clients:
            return Fault(WORD, f"{word} is a client's, and stands behind a line: client" if self.displays else BEGINS)
        kinds = parts_of(word, args)
        if kinds is None:
            return Fault(WORD, why_no_line(word, args))
        names = names_of(form_of(word, args))
        faults = [self.of_part(kind, name, arg, number) for kind, name, arg in zip(kinds, names, args)]
        fault = least([*faults, *self.of_whole(word, args, least(faults))])
        if fault is None:
            self.add(number, word, args, kinds)
        return fault

    def of_head(self, number, word, args):
        if len(args) != len(names_of(HEAD[word])):
            return Fault(WORD, why_count(word, args))
        if word == "display":
            return self.of_display(args)
        if self.displays == 0:
            return Fault(WORD, BEGINS)
        if word == "memory":
            return self.of_memory(number, args)
        if word == "without":
            return self.of_feature(number, args[0])
        self.first_client = self.first_client or number
        self.clients.append([])
        self.names.next_client()
        self.contexts = 0
        return Fault(LIMIT, f"a script has at most {MOST_CLIENTS} clients") if len(self.clients) > MOST_CLIENTS else None

    def of_display(self, args):
        behind = self.memory or min(self.features.values(), default=0) or self.first_client
        if behind:
            return Fault(WORD, f"displays stand before memory, without and client, and line {behind} is one of these")
        self.displays += 1
        many = Fault(LIMIT, f"a script has at most {MOST_DISPLAYS} displays") if self.displays > MOST_DISPLAYS else None
        return least([of_number("WIDTH", args[0], 1, MOST_WIDTH), of_number("HEIGHT", args[1], 1, MOST_HEIGHT), many])

    def of_memory(self, number, args):
        if self.memory:
            return Fault(WORD, f"memory stands once, and does on line {self.memory}")
        behind = min(self.features.values(), default=0) or self.first_client
        if behind:
            return Fault(WORD, f"memory stands before without and client, and line {behind} is one of these")
        self.memory = number
        return of_number("PAGES", args[0], 1, 16_384)

    def of_feature(self, number, feature):
        if self.first_client:
            return Fault(WORD, f"without stands before the clients, of whom the first begins on line {self.first_client}")
        again = self.features.setdefault(feature, number)
        unknown = of_choice("FEATURE", feature, FEATURES)
        return unknown or (Fault(LIMIT, f"{feature} is left out on line {again} already") if again != number else None)

    def of_part(self, kind, name, word, number):
        """The fault of one word of a call, or None."""
        if ".." in kind:
            return of_number(name, word, *map(int, kind.split("..")))
        if kind == "scanout":
            return self.of_scanout(word)
        if kind == "format":
            return of_format(word)
        if kind == "place":
            return of_place(name, word)
        if kind in ("bytes", "request"):
            return of_bytes(word, kind == "request")
        if kind in ("queue", "shape"):
            return of_choice(name, word, QUEUES if kind == "queue" else SHAPES)
        if kind == "timeline":
            return self.of_timeline(word, number)
        return None if kind == "body" else self.of_name(kind, word, number)

    def of_scanout(self, word):
        fault = of_number("SCANOUT", word, 0, self.displays - 1)
        if fault is None or fault.kind == NUMBER:
            return fault
        there = f"there are {self.displays} displays, so SCANOUT is 0 to {self.displays - 1}"
        return Fault(LIMIT, f"{there if self.displays > 1 else 'there is one display, so SCANOUT is 0'}, not {short(word)}")

    def of_timeline(self, word, number):
        if word == "-":
            return None
        context, _, ring = word.partition(":")
        return of_number("RING", ring, 0, 63) or self.of_name("context", context, number)

    def of_name(self, kind, word, number):
        if kind == "buffer-or-none":
            return None if word == "-" else self.of_name("buffer", word, number)
        if not is_name(word):
            return Fault(NAME, f"{short(word) or 'nothing'} spells no name, which is a letter and up to 15 letters or digits")
        why = (self.labels if kind.removeprefix("new-") in ("token", "fence") else self.names).fault(kind, word, number)
        return Fault(NAME, why) if why else None

    def of_whole(self, word, args, fault):
        """The faults of a line that no single word of it has: all are of limits."""
        if self.calls >= MOST_LINES:
            yield Fault(LIMIT, f"a script has at most {MOST_LINES} lines of calls, and this is one more")
        if word == "context" and self.contexts >= MOST_CONTEXTS:
            yield Fault(LIMIT, f"a client has at most {MOST_CONTEXTS} context lines, and this is one more")
        pages = pages_of(word, args) if fault is None or fault.kind > LIMIT else 0
        if self.pages + pages > MOST_PAGES:
            yield Fault(LIMIT, f"the buffers of a script ask for at most {MOST_PAGES} pages, and with this line for {self.pages + pages}")
        if word == "store" and not (fault and fault.kind == NUMBER) and len(args[3]) < 12 and len(args[2]) // 2 * int(args[3]) > STORED:
            size = len(args[2]) // 2
            yield Fault(LIMIT, f"{plural(size, 'byte')} {args[3]} times are {size * int(args[3])} bytes, and a store has at most {STORED}")
        if word == "begin" and args[2] == "submit" and args[1] != f"{args[3]}:{args[4]}":
            yield Fault(LIMIT, f"a submit is begun on its own context and ring, {short(args[3])}:{short(args[4])}, and not on {short(args[1])}")

    def add(self, number, word, args, kinds):
        self.calls += 1
        self.contexts += word == "context"
        self.pages += pages_of(word, args)
        for kind, name in zip(kinds, args):
            if kind in ("new-buffer", "new-context", "end-buffer", "end-context"):
                self.names.add(kind, name, number)
        label = args[0] if word in ("await", "import") else None
        self.clients[-1].append((number, label))


# Lines that wait


def in_cycles(waits):
    """The lines that wait, by steps, for themselves: those of which a group that is tied together has more than one (Tarjan)."""
    index, low, stack, on_stack, found = {}, {}, [], set(), set()
    for root in waits:
        work = [(root, iter(waits[root]))] if root not in index else []
        while work:
            line, others = work[-1]
            if line not in index:
                index[line] = low[line] = len(index)
                stack.append(line)
                on_stack.add(line)
            other = next((it for it in others if it not in index or it in on_stack), None)
            if other is None:
                work.pop()
                if work:
                    low[work[-1][0]] = min(low[work[-1][0]], low[line])
                if low[line] == index[line]:
                    group = list(iter(stack.pop, line))
                    on_stack.difference_update(group, [line])
                    found.update([*group, line] if group else [])
            elif other in index:
                low[line] = min(low[line], index[other])
            else:
                work.append((other, iter(waits[other])))
    return found


def way_back(line, waits):
    """The shortest way from a line through what it waits for to itself, with it at both ends."""
    came, queue = {}, collections.deque([line])
    while line not in came:
        here = queue.popleft()
        for other in waits[here]:
            if other not in came:
                came[other] = here
                queue.append(other)
    way = [line, came[line]]
    while way[-1] != line:
        way.append(came[way[-1]])
    return way[::-1]


def told_cycle(line, waits, labels):
    """A cycle in words, where `labels` has the label that a line waits for. Lines that are only stood behind aren't told."""
    way = way_back(line, waits)
    told = f"line {line}"
    for here, other, behind in zip(way, way[1:], [*way[2:], way[1]]):
        if labels.get(here) and waits[here][-1] == other:
            told += f" waits for {labels[here]} of line {other}"
            told += ", which" if other != line else ""
        elif other == line or labels.get(other) and waits[other][-1] == behind:
            told += f" comes behind line {other}"
            told += ", which" if other != line else ""
    return told


def cycle(clients, labels):
    """The first line that waits for itself, and how it does, or None."""
    if not any(label for lines in clients for _, label in lines):
        return None
    waits = {}
    for lines in clients:
        for place, (number, label) in enumerate(lines):
            waits[number] = [lines[place - 1][0]] if place else []
            if label:
                waits[number].append(labels.first[label][0])
    waiting = {number: label for lines in clients for number, label in lines if label}
    line = min(in_cycles(waits) & set(waiting), default=None)
    return None if line is None else First(line, KINDS[CYCLE], told_cycle(line, waits, waiting))


def first(text):
    """The first fault, `too long`, or None where the text is a script."""
    if len(text) > MOST_BYTES:
        return TOO_LONG
    lines = lines_of(text)
    words = [words_of(line) for line in lines]
    reader = Reader(words)
    for number, (line, its) in enumerate(zip(lines, words), 1):
        fault = Fault(TEXT, why_no_text(line)) if its is None else reader.fault(number, its)
        if fault:
            return First(number, KINDS[fault.kind], fault.why)
    if reader.displays == 0:
        return First(len(lines) + 1, KINDS[WORD], f"there is no display; {BEGINS}")
    return cycle(reader.clients, reader.labels)
