"""Scripts of requests by their bytes, sound and nearly sound ones, made of a seed: tools/against-qemu plays them."""
import random

import toolbox

histories = toolbox.module("check-history")
MOST = 2_000  # requests of a script
DISPLAYS = ((64, 48), (32, 24), (100, 64))
BUFFERS = ((64, 48), (32, 24), (16, 16), (64, 64), (40, 20), (100, 30))  # of pixels; the first has the key 1
WITHOUT = (("uuid", "blob", "context"),) * 4 + (("edid", "uuid", "blob", "context"), ("blob",), ())

# How often each command is asked for.
OFTEN = {"TRANSFER_TO_HOST_2D": 20, "RESOURCE_FLUSH": 20, "SET_SCANOUT": 14, "RESOURCE_CREATE_2D": 8, "RESOURCE_ATTACH_BACKING": 10}
OFTEN |= {"RESOURCE_DETACH_BACKING": 3, "RESOURCE_UNREF": 4, "UPDATE_CURSOR": 3, "MOVE_CURSOR": 3, "GET_DISPLAY_INFO": 2, "GET_EDID": 3}
ROOMS = {"GET_DISPLAY_INFO": 408, "GET_EDID": 1056, "RESOURCE_ASSIGN_UUID": 40}
SHAPES = ("plain", "plain", "plain", "indirect", "indirect", "mixed", *(f"pieces{n}" for n in range(2, 9)))
EDGES = (0, 1, 15, 16, 2**16, 2**31 - 1, 2**31, 2**32 - 1)
LONG_EDGES = (*EDGES, 2**32, 2**32 + 4, 2**63, 2**64 - 1)
NOBODYS = (0, 2**31, 2**32 - 1)  # resources that a client may name though it holds none of these


class Client:
    """A client whose requests suit what the device has: this side's, by the rules."""

    def __init__(self, some, without):
        self.some, self.without = some, without
        pages = sum(-(-4 * width * height // histories.PAGE) for width, height in BUFFERS)
        self.machine = histories.Machine(list(DISPLAYS), pages, without)
        self.holds = histories.Holds(1, len(DISPLAYS), pages)
        self.lines = [*(f"display {width} {height}" for width, height in DISPLAYS), f"memory {pages}"]
        self.lines += [*(f"without {feature}" for feature in without), "client"]
        for number, (width, height) in enumerate(BUFFERS):
            code = some.choice(list(histories.FORMATS))
            self.lines.append(f"buffer {'ABCDEF'[number]} {width} {height} {code}")
            self.act(f"reserve {width} {height} {code} {4 * width * height}")
            self.command("RESOURCE_CREATE_2D", resource=number + 1, format=code, width=width, height=height)
            self.command("RESOURCE_ATTACH_BACKING", resource=number + 1, count=len(self.pages(number + 1)), entries=self.ranges(number + 1))
        for scanout in range(len(DISPLAYS)):
            self.lines.append(f"take {scanout}")
            self.act(f"take {scanout}")

    def act(self, text):
        self.holds.update(text, self.machine.act(1, text))

    def command(self, name, **values):
        self.machine.command(histories.COMMANDS[name].queue, histories.written(name, (0, 0, 0, 0), values), 24)

    def pages(self, key):
        return self.machine.buffers[key].pages

    def ranges(self, key):
        return [(histories.FIRST_ADDRESS + histories.PAGE * page, histories.PAGE) for page in self.pages(key)]

    def script(self, count):
        made = 0
        while made < count:
            if self.some.random() < 0.06:
                self.store()
            queue, request, room, shape = self.request()
            if self.holds.denies(queue, request):
                continue
            self.lines.append(f"raw {queue} {room} {shape} {request.hex() or '-'}")
            if shape not in histories.FAULTS:
                self.machine.command(queue, request, room)
            made += 1
        return "".join(f"{line}\n" for line in self.lines).encode()

    def store(self):
        """Other pixels in a buffer: a few bytes, over and over."""
        some, number = self.some, self.some.randrange(len(BUFFERS))
        size = 4 * BUFFERS[number][0] * BUFFERS[number][1]
        part = some.randbytes(some.choice((4, 8, 12, 28, 100)))
        offset = some.choice((0, 0, some.randrange(size // 2)))
        self.lines.append(f"store {'ABCDEF'[number]} {offset} {part.hex()} {(size - offset) // len(part)}")

    # Requests

    def request(self):
        """The queue, the bytes, the room and the shape of one."""
        some = self.some
        row = some.choices(ROWS, WEIGHTS)[0]
        if row.name == "RESOURCE_CREATE_2D" and len(self.machine.resources) == len(BUFFERS) and some.random() < 0.8:
            row = histories.COMMANDS["RESOURCE_UNREF"]
        values = self.values(row)
        queue, room, shape = row.queue, ROOMS.get(row.name, 24 if row.queue == "control" else 0), "plain"
        header = [some.choice((0, 1, 1, 1)), some.choice((0, 1, some.getrandbits(64))), 0, 0]
        if row.kind >> 8 == histories.OF_CONTEXTS:
            header[2] = some.choice((0, 257, 257, 2**31))
        for _ in range(some.choice((0, 0, 0, 1, 1, 2))):
            self.spoil(row, header, values)
        if some.random() < 0.1:
            room = some.choice((0, 1, 3, 4, 10, 23, 24, 25, 40, 100, 408, 1056, 8192))
        if some.random() < 0.15:
            shape = some.choice(SHAPES)
        request = histories.written(row.name, header, values)
        if some.random() < 0.05:
            request = request[: some.randrange(24, len(request) + 1)]
        if some.random() < 0.05:
            request += some.randbytes(some.choice((1, 4, 16, 100)))
        if some.random() < 0.02:
            queue = some.choice(("control", "cursor"))
        if some.random() < 0.01:
            request = some.choice((0, 0x103, 0x10E, 0x1FF, 0x300, 0x302, 0x1100, some.getrandbits(32))).to_bytes(4, "little") + request[4:]
        if some.random() < 0.002:
            request = request[: some.randrange(24)]
        if some.random() < 0.01:
            shape = some.choice(histories.FAULTS)
        return queue, request, room, shape

    def values(self, row):
        """Fields that the device accepts, where it has anything that fits."""
        some, live = self.some, self.machine.resources
        backed = [key for key, resource in live.items() if getattr(resource, "backing", None)]
        bare = [key for key in live if key not in backed]
        key = some.choice(list(live) or [1])
        values = {"scanout": some.randrange(len(DISPLAYS)), "resource": key}
        if row.name == "RESOURCE_CREATE_2D":
            free = [number for number in range(1, len(BUFFERS) + 1) if number not in live]
            width, height = some.choice((*BUFFERS, (some.randrange(1, 120), some.randrange(1, 80))))
            return {"resource": some.choice(free or [key]), "format": some.choice(list(histories.FORMATS)), "width": width, "height": height}
        if row.name == "RESOURCE_ATTACH_BACKING":
            values["resource"] = some.choice(bare or [key])
            values["entries"] = self.entries(values["resource"])
            return values | {"count": len(values["entries"])}
        shown = [screen.resource for screen in self.machine.screens.values()]
        if row.name in ("TRANSFER_TO_HOST_2D", "RESOURCE_DETACH_BACKING", "SET_SCANOUT") and backed and some.random() < 0.97:
            values["resource"] = some.choice(backed)
        if row.name in ("TRANSFER_TO_HOST_2D", "RESOURCE_FLUSH") and shown and some.random() < 0.7:
            values["resource"] = some.choice(shown)
        if row.name == "UPDATE_CURSOR" and some.random() < 0.6:
            values["resource"] = 0
        if row.name == "SET_SCANOUT" and some.random() < 0.08:
            values["resource"] = 0
        if row.name.startswith("RESOURCE_CREATE_BLOB"):
            free = [number for number in range(1, len(BUFFERS) + 1) if number not in live]
            values |= {"resource": some.choice(free or [key]), "blob_mem": 1, "blob_flags": 2}
            entries = self.ranges(values["resource"])
            return values | {"entries": entries, "count": len(entries), "size": histories.PAGE * len(entries)}
        values |= self.rectangle(live.get(values["resource"]), row.name)
        values |= {"hot_x": some.randrange(64), "hot_y": some.randrange(64), "capset_id": 1}
        return values | {"surface_width": 16, "surface_height": 16, "stride": 64, "offset": values.get("offset", 0), "format": 1}

    def rectangle(self, resource, name):
        """A rectangle inside of a resource: the whole, whole rows, or any; and for a transfer the offset of its first pixel, or another."""
        some = self.some
        if resource is None or isinstance(resource, histories.Blob):
            return {"x": 0, "y": 0, "width": 16, "height": 16, "offset": 0}
        how = some.random()
        x, y, width, height = 0, 0, resource.width, resource.height
        if how > 0.35:
            y, height = self.part(height, name)
        if how > 0.6:
            x, width = self.part(width, name)
        offset = 4 * (resource.width * y + x)
        if some.random() < 0.15:
            offset = some.choice((0, 4, 1, offset + 1, some.randrange(4 * resource.width * resource.height)))
        return {"x": x, "y": y, "width": width, "height": height, "offset": offset}

    def part(self, size, name):
        least = 16 if name == "SET_SCANOUT" and size >= 16 and self.some.random() < 0.9 else min(size, self.some.choice((0, 1, 1, 1)))
        length = self.some.randint(least, size)
        return self.some.randint(0, size - length), length

    def entries(self, key):
        """A buffer's pages as a backing: as they are, in another order, in larger pieces, in parts, or only some."""
        some, found = self.some, self.ranges(key)
        how = some.random()
        if how < 0.3:
            return found
        if how < 0.5:
            return some.sample(found, len(found))
        if how < 0.7:
            return [(found[0][0], sum(length for _, length in found))]
        if how < 0.85:
            cuts = sorted(some.randrange(1, histories.PAGE * len(found)) for _ in range(some.randrange(1, 12)))
            places = [0, *cuts, histories.PAGE * len(found)]
            return [(found[0][0] + one, other - one) for one, other in zip(places, places[1:]) if one < other]
        return found[: some.randint(1, len(found))]

    def spoil(self, row, header, values):
        """One field is another: next to what it is, at an edge, or any."""
        some = self.some
        fields = [name for name in (histories.part_of(field)[0] for field in row.fields) if name not in ("-", "debug_name", "stream")]
        name = some.choice([*fields, "header"])
        if name == "header":
            header[0] = some.choice((0, 1, 2, 3, 3, 2**32 - 1, 2**32 - 2))
            header[2], header[3] = some.choice((0, 257, 2**31, 2**32 - 1)), some.choice((0, 1, 63, 64, 255))
        elif name == "entries":
            self.spoil_entries(values["entries"])
        elif name == "resource":
            values[name] = some.choice((*NOBODYS, *range(1, len(BUFFERS) + 1)))
        else:
            size, signed = next(histories.part_of(field)[1:] for field in row.fields if histories.part_of(field)[0] == name)
            now = values.get(name, 0)
            value = some.choice((now + 1, now + 1, now - 1, now - 1, 2 * now, -now, now + 4, some.getrandbits(8), *(LONG_EDGES if size == 8 else EDGES)))
            values[name] = value % 256**size
            if signed and values[name] >= 2**31:
                values[name] -= 2**32

    def spoil_entries(self, entries):
        """One that can't be, or one more or fewer than there are."""
        some, at = self.some, self.some.randrange(len(entries) + 1)
        if at == len(entries):
            entries[some.randrange(2) * (at - 1) :] = []
            return
        address, length = entries[at]
        entries[at] = some.choice(((address, 0), (address, length - 1), (address + 1, length - 1), (0, length), (2**40, length), (address, 2**32 - 1), (address, 1)))


ROWS = [row for key, row in histories.COMMANDS.items() if isinstance(key, int)]
WEIGHTS = [OFTEN.get(row.name, 1) for row in ROWS]


def scripts(count, seed):
    """Scripts of so many requests in all, each with its name."""
    for number in range(-(-count // MOST)):
        some = random.Random(f"{seed} {number}")
        client = Client(some, WITHOUT[number % len(WITHOUT)])
        yield f"seed {seed}, script {number}", client.script(min(MOST, count - MOST * number))
