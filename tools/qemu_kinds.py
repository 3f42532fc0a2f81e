"""What QEMU's virtio-gpu does with a request, as it was seen, and the kinds of differences that docs/QEMU.md explains.

tools/against-qemu stands on it. A `Device` has what QEMU has by its own answers, and foresees its next one: so a difference is of a
known kind only where QEMU answers what was foreseen, and one of the rules of `KINDS` recognises it. A kind's group says what it is:
`profile` where this machine's profile chose and the standard leaves the choice (which error code a refusal has and which of two
refusals comes first, what goes back of a fence beside its number, and values), `different` for all else.
"""
import collections
import struct

import toolbox

histories = toolbox.module("check-history")
from_rules = (histories.OK_NODATA, histories.OK_DISPLAY_INFO, histories.OK_EDID)
OK_NODATA, OK_DISPLAY_INFO, OK_EDID = from_rules
UNSPEC, OUT_OF_MEMORY, NO_SCANOUT, NO_RESOURCE, PARAMETER = (getattr(histories, name) for name in "UNSPEC OUT_OF_MEMORY NO_SCANOUT NO_RESOURCE PARAMETER".split())
HEADER = histories.HEADER
LEAST_SCANOUT = 16  # pixels of a row and rows that a scanout has to have there
MOST_ENTRIES = 16_384
MOST_SIDE = 2**31 // 32  # pixels of a row for which the library of its pixels has numbers
WORD = 2**32


def is_refused(code):
    return code >= UNSPEC


class Device:
    """QEMU's device by its answers: its resources and what its scanouts show. Its pixels are those of its resources at once.

    `why` of a resource and of a scanout are the kinds of differences that made it other than it is on this side.
    """

    def __init__(self, machine, most_bytes):
        self.machine, self.most_bytes = machine, most_bytes
        self.scanouts = len(machine.displays)
        self.resources, self.screens, self.bytes = {}, {}, 0

    # What it answers. Each gives a code.

    def foresee(self, row, it, size):
        """Of a whole header. `it` is None where the fields aren't all there; `size` is of the request."""
        if row is None or row.name not in FORESEEN or row.queue == "cursor":
            return UNSPEC
        if size < fixed_size(row) and row.name not in ("RESOURCE_CREATE_BLOB", "SET_SCANOUT_BLOB"):
            return OK_NODATA
        return FORESEEN[row.name](self, it)

    def full(self, code, request, body):
        """A whole response."""
        _, flags, fence, context, _ = HEADER.unpack_from(request)
        header = (1, fence, context, 0) if flags & histories.FENCE else (0, 0, 0, 0)
        return HEADER.pack(code, *header) + body

    def create_2d(self, it):
        if it.resource == 0 or it.resource in self.resources:
            return NO_RESOURCE
        if it.format not in histories.FORMATS:
            return PARAMETER
        if 0 in (it.width, it.height):
            return OK_NODATA
        if it.width >= MOST_SIDE or it.height >= WORD // 2 or self.bytes + 4 * it.width * it.height % WORD >= self.most_bytes:
            return OUT_OF_MEMORY
        return OK_NODATA

    def unref(self, it):
        return OK_NODATA if it.resource in self.resources else NO_RESOURCE

    def set_scanout(self, it):
        if it.scanout >= self.scanouts:
            return NO_SCANOUT
        if it.resource == 0:
            return OK_NODATA
        code = self.with_backing(it)
        if is_refused(code):
            return code
        if min(it.width, it.height) < LEAST_SCANOUT or not self.is_inside(it):
            return PARAMETER
        return OK_NODATA

    def flush(self, it):
        if it.resource not in self.resources:
            return NO_RESOURCE
        return OK_NODATA if self.is_inside(it) else PARAMETER

    def transfer(self, it):
        code = self.with_backing(it)
        if is_refused(code):
            return code
        return OK_NODATA if self.is_inside(it) else PARAMETER

    def attach(self, it):
        """`it` has the fields in front of the entries, and as many entries as are there."""
        if it.resource not in self.resources:
            return NO_RESOURCE
        if self.resources[it.resource].backing is not None or it.count > MOST_ENTRIES or it.count > len(it.entries):
            return UNSPEC
        return UNSPEC if any(length == 0 for _, length in it.entries[: it.count]) else OK_NODATA

    def with_backing(self, it):
        if it.resource not in self.resources:
            return NO_RESOURCE
        return UNSPEC if self.resources[it.resource].backing is None else OK_NODATA

    def edid(self, it):
        return OK_EDID if it.scanout < self.scanouts else PARAMETER

    def is_inside(self, it):
        resource = self.resources[it.resource]
        return histories.inside(histories.rect_of(it), resource.width, resource.height)

    # What it changes. The code is the one that it gave.

    def change(self, row, it, code, why):
        """After an answer that is no refusal. `why` is the kind of the difference from this side's answer, or None."""
        if row is not None and it is not None and row.name in CHANGES and code == OK_NODATA and self.can_change(row.name, it):
            CHANGES[row.name](self, it, why)

    def can_change(self, name, it):
        """Whether there is what would change. Behind an answer that wasn't foreseen there may be nothing."""
        if name == "RESOURCE_CREATE_2D":
            return it.resource not in self.resources and 4 * it.width * it.height < WORD
        if name == "SET_SCANOUT" and it.resource == 0:
            return True
        if name in ("SET_SCANOUT", "TRANSFER_TO_HOST_2D") and it.resource in self.resources:
            return self.is_inside(it) and (name == "SET_SCANOUT" or self.resources[it.resource].backing is not None)
        return it.resource in self.resources

    def make(self, it, why):
        resource = histories.Resource(it.width, it.height, it.format)
        resource.why = {why} - {None}
        self.bytes += 4 * it.width * it.height
        self.resources[it.resource] = resource

    def end(self, it, _why):
        resource = self.resources.pop(it.resource)
        self.bytes -= 4 * resource.width * resource.height
        self.screens = {scanout: screen for scanout, screen in self.screens.items() if screen[0] != it.resource}

    def show(self, it, _why):
        if it.resource == 0:
            self.screens.pop(it.scanout, None)
        else:
            self.screens[it.scanout] = (it.resource, histories.rect_of(it))

    def attached(self, it, why):
        resource = self.resources[it.resource]
        resource.backing = it.entries[: it.count] or None
        resource.why |= {why} - {None}

    def detached(self, it, _why):
        self.resources[it.resource].backing = None

    def copy(self, it, why):
        """A transfer. One from the front on that is as wide as the resource takes all rows; offsets wrap, and what lacks stays."""
        resource = self.resources[it.resource]
        source = self.machine.bytes_of(resource.backing)
        stride = 4 * resource.width
        if self.is_whole(it):
            size = min(len(source), len(resource.pixels))
            asked = min(stride * it.height, size)
            why = why or ("whole-transfer" if resource.pixels[asked:size] != source[asked:size] else None)
            resource.pixels[:size] = source[:size]
        else:
            for j in range(it.height):
                at, to = (it.offset + stride * j) % WORD, stride * (it.y + j) + 4 * it.x
                row = source[at : at + 4 * it.width]
                resource.pixels[to : to + len(row)] = row
        resource.why |= {why} - {None}

    def is_whole(self, it):
        return it.offset == it.x == it.y == 0 and it.width == self.resources[it.resource].width

    # What its screens show.

    def view(self, scanout):
        """The pixels of a screen as red, green and blue, or None where it shows nothing."""
        if scanout not in self.screens:
            return None
        number, rect = self.screens[scanout]
        return seen(self.resources[number], rect)


def seen(resource, rect):
    """A rectangle of a resource, as red, green and blue."""
    rows = []
    for y in range(rect.y, rect.y + rect.height):
        at = 4 * (resource.width * y + rect.x)
        rows.append(resource.pixels[at : at + 4 * rect.width])
    return without_alpha(histories.shown(b"".join(rows), resource.code))


def without_alpha(pixels):
    """Of pixels of blue, green, red and alpha their red, green and blue."""
    found = bytearray(len(pixels) // 4 * 3)
    found[0::3], found[1::3], found[2::3] = pixels[2::4], pixels[1::4], pixels[0::4]
    return bytes(found)


FORESEEN = {
    "GET_DISPLAY_INFO": lambda _device, _it: OK_DISPLAY_INFO,
    "RESOURCE_CREATE_2D": Device.create_2d,
    "RESOURCE_UNREF": Device.unref,
    "SET_SCANOUT": Device.set_scanout,
    "RESOURCE_FLUSH": Device.flush,
    "TRANSFER_TO_HOST_2D": Device.transfer,
    "RESOURCE_ATTACH_BACKING": Device.attach,
    "RESOURCE_DETACH_BACKING": Device.with_backing,
    "GET_EDID": Device.edid,
    "RESOURCE_CREATE_BLOB": lambda _device, _it: PARAMETER,
    "SET_SCANOUT_BLOB": lambda _device, _it: PARAMETER,
}
CHANGES = {
    "RESOURCE_CREATE_2D": Device.make,
    "RESOURCE_UNREF": Device.end,
    "SET_SCANOUT": Device.show,
    "TRANSFER_TO_HOST_2D": Device.copy,
    "RESOURCE_ATTACH_BACKING": Device.attached,
    "RESOURCE_DETACH_BACKING": Device.detached,
}


def fixed_size(row):
    """The bytes of a request without its entries or its stream."""
    return HEADER.size + sum(histories.part_of(field)[1] for field in row.fields if field not in ("entries", "stream"))


def fields_of(queue, request):
    """The row of a request and its fields; None for the row where there is none, and for the fields where they aren't all there.

    Of entries that aren't all there those that are there stand in `entries`.
    """
    row = histories.COMMANDS.get(HEADER.unpack_from(request)[0]) if len(request) >= HEADER.size else None
    if row is None or row.queue != queue:
        return row, None
    found = histories.read_request(queue, request)
    if found:
        return found
    size = fixed_size(row)
    if "entries" not in row.fields or len(request) < size:
        return row, None
    at = 24 + [histories.part_of(field)[0] for field in row.fields].index("count") * 4
    none = bytearray(request[:size])
    none[at : at + 4] = bytes(4)
    _, it = histories.read_request(queue, bytes(none))
    (it.count,) = struct.unpack_from("<I", request, at)
    whole = size + (len(request) - size) // 16 * 16
    it.entries = [(address, length) for address, length, _ in histories.ENTRY.iter_unpack(request[size:whole])]
    return row, it


# The kinds


Kind = collections.namedtuple("Kind", "name group rule")
# A request that was played. `ours` and `theirs` are codes, or None where there is no answer; `differs` says whether what it names is other
# on the two sides because of an earlier difference; `device` is as it was before.
Case = collections.namedtuple("Case", "queue row it size shape ours theirs differs device")
KINDS = []


def kind(group):
    """A kind of difference: its name is the function's, with hyphens. The function says whether a case is of that kind."""

    def add(function):
        KINDS.append(Kind(function.__name__.replace("_", "-"), group, function))
        return function

    return add


def are(it, name, ours, theirs):
    return it.row is not None and it.row.name == name and (it.ours, it.theirs) == (ours, theirs)


@kind("different")
def mixed(it):
    """A request through a table behind a first descriptor isn't found there."""
    return it.shape == "mixed" and it.theirs is None


@kind("different")
def short_header(it):
    return it.queue == "control" and it.size < HEADER.size and it.theirs is None


@kind("different")
def cursor_unanswered(it):
    return it.queue == "cursor" and it.theirs is None


@kind("different")
def earlier(it):
    """What the request names is there, or is as large, on one side alone."""
    return it.differs and it.theirs is not None


@kind("profile")
def code(it):
    """Both refuse it, each with another code."""
    return it.ours != it.theirs and it.theirs is not None and is_refused(it.ours) and is_refused(it.theirs)


@kind("different")
def short_body(it):
    is_short = it.row is not None and it.size < fixed_size(it.row)
    return is_short and (it.ours, it.theirs) == (UNSPEC, OK_NODATA)


@kind("different")
def edid_unoffered(it):
    return are(it, "GET_EDID", UNSPEC, OK_EDID) and "edid" not in it.device.machine.features


@kind("different")
def empty_resource(it):
    return are(it, "RESOURCE_CREATE_2D", PARAMETER, OK_NODATA) and 0 in (it.it.width, it.it.height)


@kind("different")
def no_entries(it):
    return are(it, "RESOURCE_ATTACH_BACKING", PARAMETER, OK_NODATA) and it.it.count == 0


@kind("different")
def no_backing(it):
    return are(it, "SET_SCANOUT", OK_NODATA, UNSPEC) and it.device.resources[it.it.resource].backing is None


@kind("different")
def small_scanout(it):
    return are(it, "SET_SCANOUT", OK_NODATA, PARAMETER) and min(it.it.width, it.it.height) < LEAST_SCANOUT


@kind("different")
def screen_limit(it):
    return are(it, "SET_SCANOUT", OUT_OF_MEMORY, OK_NODATA) and 4 * it.it.width * it.it.height > histories.MOST_SCREEN


@kind("different")
def frame_limit(it):
    return are(it, "RESOURCE_FLUSH", OUT_OF_MEMORY, OK_NODATA)


@kind("different")
def offset_wraps(it):
    return are(it, "TRANSFER_TO_HOST_2D", PARAMETER, OK_NODATA) and it.it.offset + 4 * it.it.width * it.it.height >= WORD


@kind("different")
def past_backing(it):
    if not are(it, "TRANSFER_TO_HOST_2D", PARAMETER, OK_NODATA):
        return False
    resource = it.device.resources[it.it.resource]
    end = it.it.offset + 4 * resource.width * (it.it.height - 1) + 4 * it.it.width
    return end > sum(length for _, length in resource.backing)


# Of responses of one code: what stands behind it. These are told beside what the code's difference is, if there is one.
HEADERS = {"ring-echo": "profile"}
BODIES = {"modes": "profile", "edid": "profile"}
# Of frames.
FRAMES = ("unflushed", "whole-transfer", "earlier")


def kind_of(case):
    """The first kind whose rule recognises a case in which the codes differ, or None."""
    return next((one for one in KINDS if one.rule(case)), None)


def is_ring_echo(request, ours, theirs):
    """Of two headers: the ring index and its flag go back on this side alone."""
    _, flags, fence, context, ring = HEADER.unpack_from(request)
    one, other = HEADER.unpack(ours)[1:], HEADER.unpack(theirs)[1:]
    return flags & 3 == 3 and one == (3, fence, context, ring) and other == (1, fence, context, 0)


def are_modes(ours, theirs):
    """Of two bodies of a display information: the first display is the same, and QEMU's others are disabled."""
    return ours[:24] == theirs[:24] and not any(theirs[24:])


def size_of(block):
    """Width and height of the first timing of an EDID's base block, or None where it is no sound one."""
    if len(block) < 128 or block[:8] != bytes.fromhex("00ffffffffffff00") or sum(block[:128]) % 256:
        return None
    timing = block[54:72]
    return timing[2] | (timing[4] & 0xF0) << 4, timing[5] | (timing[7] & 0xF0) << 4


def are_edids(scanout, ours, theirs):
    """Of two bodies of an EDID: both are sound, and of scanout 0 of one size. QEMU tells all of its 1,024 bytes."""
    if len(theirs) != 1032 or theirs[:8] != struct.pack("<II", 1024, 0):
        return False
    one, other = size_of(ours[8:]), size_of(theirs[8:])
    return None not in (one, other) and (scanout != 0 or one == other)


def group_of(name):
    """The group of a kind of requests."""
    known = {one.name: one.group for one in KINDS} | HEADERS | BODIES
    return known.get(name)
