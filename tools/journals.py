"""Reads a journal strictly: tools/frames, tools/explain and tools/check-history stand on it.

Each byte counts. Where a journal is broken, `Broken` is raised, and the `number` of its `Lines` is that of the line:
one less is the most whole lines of it with which some journal begins. A frame's raw bytes count as one line. What `Broken`
says is what should stand there, by docs/JOURNAL.md; `why` makes a sentence of it.
"""
import collections
import re

from toolbox import listed

LAST_32 = 2**32 - 1
LAST_63 = 2**63 - 1
MOST_JOURNAL = 2_147_483_648
MOST_REQUEST = 49_152
MOST_RESPONSE = 8_192
MOST_SCREEN = 33_554_432
MOST_FRAMES = 268_435_456

# What a display and the clients are at the most, by the version that the first line says.
Limits = collections.namedtuple("Limits", "width height clients")
LIMITS = {1: Limits(640, 480, 16), 2: Limits(1920, 1080, 32)}

FEATURES = [b"edid", b"uuid", b"blob", b"context"]
FAULTS = [b"index", b"loop", b"nested", b"nextindirect", b"tablelength", b"order", b"range"]
SHAPES = [b"plain", b"indirect", b"mixed", *(b"pieces%d" % n for n in range(2, 9)), *FAULTS]

# A word in capitals stands for one of many: see KINDS. Any other stands for itself.
ACTS = """
enter
reserve N N N N
store N N HEX N
load N N N
export N
import N
release N
free N
take N
drop N
await N COUNT
denied name
denied resource N
denied scanout N
denied context N
denied page N
mode N N N
unplug N
sync COUNT
events
ack
leave
"""
REPLIES = """
ok
key N pages LIST
bytes HEX
token N
key N size N N N N pages LIST
kept
last
full N
unknown
notheld
held N
range N
inuse N
live
events 0
events 1
"""

# Longer numbers are past every range, and so never become an int, which would take more than linear time.
NUMBER = re.compile(rb"0|[1-9][0-9]{0,18}")


# What a journal says. Each of `displays` is a width and a height; `without` are features; `host` tells whether there is a host, which
# is a client behind the last. The words of an entry and of its reply are bytes: those of an act without the word `act`, or LANE ORDINAL ROOM SHAPE HEX of a request (`is_act` tells).
# The lines are numbers of lines, from 1: `line` of a frame is that of its text, and `start` the place of its first byte.
Journal = collections.namedtuple("Journal", "version displays pages without clients host entries control cursor frames rings_line frames_line")
Entry = collections.namedtuple("Entry", "number client call is_act words reply")
Frame = collections.namedtuple("Frame", "number scanout width height entry start line")


def upgraded(text):
    """The text of a journal with the queues of version 2."""
    if text.startswith(b"vgpu-journal 2\n"):
        return text
    behind = text.index(b"\n", text.index(b"\nmemory ") + 1) + 1
    return b"vgpu-journal 2\n" + text[len(b"vgpu-journal 1\n") : behind] + b"queues 256 64\n" + text[behind:]


class Broken(Exception):
    """The line that is being read is one with which no journal goes on here: what should stand there."""


class BrokenBytes(Broken):
    """It isn't a line of words: what is wrong, in a sentence."""


def need(holds, wanted="", *values):
    if not holds:
        raise Broken(wanted.format(*values))


def is_number(word, least, most):
    return NUMBER.fullmatch(word) is not None and least <= int(word) <= most


def is_hex(word, most=None):
    """Whether the word spells bytes, at most so many."""
    if word == b"-":
        return True
    digits = len(word)
    if digits == 0 or digits % 2 != 0 or (most is not None and digits > 2 * most):
        return False
    return not word.translate(None, b"0123456789abcdef")


def is_list(word):
    return word == b"-" or all(is_number(page, 0, LAST_32) for page in word.split(b","))


KINDS = {
    b"N": lambda word: is_number(word, 0, LAST_32),
    b"COUNT": lambda word: is_number(word, 0, LAST_63),
    b"HEX": is_hex,
    b"LIST": is_list,
}


def told(words):
    return b" ".join(words).decode()


def forms(table):
    """The table's lines as words, by their first word."""
    found = {}
    for line in table.encode().splitlines():
        words = line.split()
        if words:
            found.setdefault(words[0], []).append(words)
    return found


ACT_FORMS = forms(ACTS)
REPLY_FORMS = forms(REPLIES)


def fits(found, words):
    """Whether the words have one of these forms."""
    return bool(words) and any(
        len(form) == len(words) and all(KINDS[part](word) if part in KINDS else part == word for part, word in zip(form, words))
        for form in found.get(words[0], [])
    )


def need_fit(found, words, what):
    """The words have one of these forms; else it is told which of them begin with the first word, or which first words there are."""
    if not fits(found, words):
        alike = found.get(words[0] if words else b"")
        if alike is None:
            raise Broken(f"{what}, which begins with {' or '.join(map(bytes.decode, found))}")
        raise Broken(f"{what} as {' or '.join(f'`{told(form)}`' for form in alike)}, with N below 2^32 and COUNT below 2^63")


class Lines:
    """The lines of a journal in turn. `number` is that of the line that is being read, from 1, and `start` the place of its first byte."""

    def __init__(self, journal):
        self.journal = journal
        self.at = self.start = 0
        self.number = 0

    def words(self, wanted):
        """The words of the next line: two spaces side by side, or one at an end, make an empty word, which fits nothing."""
        self.number += 1
        self.start = self.at
        end = self.journal.find(b"\n", self.at)
        need(end >= 0, wanted)
        line = self.journal[self.at : end]
        self.at = end + 1
        return line.split(b" ")

    def pixels(self, size):
        """Where the next line begins, which has so many bytes, whatever they are."""
        self.number += 1
        self.start = self.at
        self.at = self.start + size + 1
        found = self.journal[self.start + size : self.at]
        if not found:
            raise BrokenBytes(f"the frame has {size} bytes of pixels and a line end, and the text {self.left()}")
        if found != b"\n":
            raise BrokenBytes(f"behind the frame's {size} bytes of pixels is byte {found[0]}, not 10")
        return self.start

    def left(self):
        """What there is from the start of the line on, in words."""
        count = len(self.journal) - self.start
        return f"has {count} byte{'s' * (count != 1)} more"

    def end(self):
        self.number += 1
        self.start = self.at
        if self.at != len(self.journal):
            raise BrokenBytes(f"nothing stands behind `end`, and the text {self.left()}")


def told_range(least, most):
    return f"{least}" if least == most else "below 2^32" if most == LAST_32 else "below 2^63" if most == LAST_63 else f"{least} to {most}"


def numbers(words, form, *ranges):
    """The numbers of a line of this form: its first word is the name, and each other stands for a number that has its range."""
    name, *letters = form.split()
    fit = words[0] == name.encode() and len(words) == 1 + len(ranges)
    if not fit or not all(is_number(word, least, most) for word, (least, most) in zip(words[1:], ranges)):
        raise Broken(f"`{form}`, with {listed((f'{letter} {told_range(*its)}' for letter, its in zip(letters, ranges)), 'and')}")
    return [int(word) for word in words[1:]]


TITLE = "`vgpu-journal 1` or `vgpu-journal 2`"


def read_title(lines):
    """Reads the first line, which says the version."""
    words = lines.words(TITLE)
    need(len(words) == 2 and words[0] == b"vgpu-journal" and words[1] in (b"1", b"2"), TITLE)
    return int(words[1])


def read_head(lines):
    """Reads up to the line of the clients. Gives the version, the displays, the pages, the features left out, the clients."""
    version = read_title(lines)
    limits = LIMITS[version]
    sizes = (1, limits.width), (1, limits.height)
    displays = [numbers(lines.words("`display 0 W H`"), "display S W H", (0, 0), *sizes)[1:]]
    more = "`display S W H` or `memory P`"
    words = lines.words(more)
    while len(displays) < 16 and words[0] == b"display":
        displays.append(numbers(words, "display S W H", (len(displays), len(displays)), *sizes)[1:])
        words = lines.words(more)
    need(words[0] == b"memory" or len(displays) == 16, more)
    (pages,) = numbers(words, "memory P", (1, 16_384))
    if version == 2:
        need(lines.words("`queues 256 64`") == [b"queues", b"256", b"64"], "`queues 256 64`")
    more = "`clients C`, or `without F` with F edid, uuid, blob or context, in this order"
    words = lines.words(more)
    without = []
    for feature in FEATURES:
        if words == [b"without", feature]:
            without.append(feature)
            words = lines.words(more)
    need(words[0] == b"clients", more)
    (clients,) = numbers(words, "clients C", (0, limits.clients))
    return version, displays, pages, without, clients


ENTRY = "entry {0}, which is `{0} C K act .. = ..` or `{0} C K cmd .. = ..`, or `rings A B`"


def read_entry(words, number, clients):
    """Reads a line of the history: who of so many clients, the host among them, and an act or a request with its reply."""
    need(b"=" in words, ENTRY, number)
    sign = words.index(b"=")
    asked, reply = words[:sign], words[sign + 1 :]
    need(len(asked) > 4 and asked[0] == b"%d" % number, ENTRY, number)
    need(is_number(asked[1], 1, clients), "a client's number as the second word, 1 to {}", clients)
    need(is_number(asked[2], 0, LAST_63), "a call's number as the third word, below 2^63")
    is_act = asked[3] == b"act"
    if is_act:
        need_fit(ACT_FORMS, asked[4:], "an act")
        need_fit(REPLY_FORMS, reply, "a reply to an act")
    else:
        read_request(asked, reply)
    return Entry(number, int(asked[1]), int(asked[2]), is_act, asked[4:], reply)


def read_request(asked, reply):
    need(asked[3] == b"cmd" and len(asked) == 9, "`act` and its words as the fourth word, or `cmd LANE ORDINAL ROOM SHAPE HEX`")
    lane, ordinal, room, shape, request = asked[4:]
    need(is_number(lane, 0, 65), "a lane of 0 to 65")
    need(is_number(ordinal, 0, LAST_63), "an ordinal below 2^63")
    need(is_number(room, 0, 8_192), "a room of 0 to 8192")
    need(shape in SHAPES, "a shape, which is one of those in docs/JOURNAL.md, Requests")
    need(is_hex(request, MOST_REQUEST), "a request as HEX in small letters, two a byte, of at most {} bytes, or - for none", MOST_REQUEST)
    if len(reply) == 1:
        need(is_hex(reply[0], MOST_RESPONSE), "a response as HEX in small letters, two a byte, of at most {} bytes, or - for none", MOST_RESPONSE)
    else:
        is_fault = len(reply) == 2 and reply[0] == b"fault" and reply[1] in FAULTS
        need(is_fault, "a response as HEX, or `fault SHAPE` with one of the shapes that have a fault")


def read_frames(lines):
    """Reads the frames and the end."""
    (count,) = numbers(lines.words("`frames M`"), "frames M", (0, LAST_63))
    frames = []
    room = MOST_FRAMES
    for number in range(1, count + 1):
        ranges = (number, number), (0, LAST_32), (0, LAST_32), (0, LAST_32), (0, LAST_63)
        _, scanout, width, height, entry = numbers(lines.words("`frame I S W H E`"), "frame I S W H E", *ranges)
        line = lines.number
        size = 4 * width * height
        room -= size
        need(size <= MOST_SCREEN and room >= 0, "a frame of at most {} bytes, with which all have at most {}", MOST_SCREEN, MOST_FRAMES)
        frames.append(Frame(number, scanout, width, height, entry, lines.pixels(size), line))
    need(lines.words("`end`") == [b"end"], "`end`")
    lines.end()
    return frames


def read(lines):
    """Reads a journal from its first byte to its last."""
    version, displays, pages, without, clients = read_head(lines)
    entries = []
    words = lines.words(ENTRY.format(1))
    host = version == 2 and words == [b"host"]
    if host:
        words = lines.words(ENTRY.format(1))
    while words[0] != b"rings":
        entries.append(read_entry(words, len(entries) + 1, clients + host))
        words = lines.words("an entry, or `rings A B`")
    control, cursor = numbers(words, "rings A B", (0, LAST_63), (0, LAST_63))
    rings_line = lines.number
    frames = read_frames(lines)
    return Journal(version, displays, pages, without, clients, host, entries, control, cursor, frames, rings_line, rings_line + 1)


def why(lines, broken):
    """What is wrong with the line that is being read, in a sentence."""
    wanted, (line, end, _) = str(broken), lines.journal[lines.start :].partition(b"\n")
    if isinstance(broken, BrokenBytes):
        return wanted
    if not line and not end:
        return f"the text ends, where there should be {wanted}"
    found = line[:100].decode("ascii", "backslashreplace") + (".." if len(line) > 100 else "")
    if not end:
        return f"the text ends within the line `{found}`, where there should be {wanted}"
    if line.endswith(b"\r"):
        return "the line ends with a carriage return (byte 13): the file has Windows line ends, and a line ends with byte 10 alone"
    if b"" in line.split(b" ") and line:
        return f"one blank stands between two words and none at an end, and the line is `{found}`"
    return f"there should be {wanted}, and the line is `{found}`"
