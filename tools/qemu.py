"""A machine of QEMU that no guest runs on: its memory, its PCI and its virtio-gpu are used from outside, as a driver would.

tools/against-qemu stands on it. QEMU is told what to do over two sockets of the host: by the protocol of its tests (`-qtest`), which
reads and writes guest memory and ports, and by QMP, which takes pictures of the screens. Where QEMU was built without the
accelerator of that protocol, as Debian's is, the machine's processor stands still from the start instead.
"""
import base64
import collections
import ctypes
import json
import shutil
import signal
import socket
import struct
import subprocess
import tempfile
import time

PROGRAM = "qemu-system-x86_64"
SECONDS = 60  # until a start, a reply over a socket or a picture is given up
PATIENCE = 10  # until a request counts as unanswered

# Where things stand in guest memory, which has 128 MiB: above the 16,384 pages that a script may have, from 1 MiB on.
MEMORY = 128
RINGS = 96 << 20
REQUEST, RESPONSE, TABLE = RINGS + 0x10000, RINGS + 0x20000, RINGS + 0x30000
BEHIND, ASKED_BEHIND = 32, RINGS + 0x40000  # the place and the bytes of a request that shows whether the one before it is answered
BAR = 0xE0000000  # an address in the hole for PCI, which has nothing else

# VIRTIO 1.2, 4.1.4: the PCI device, its capabilities, and the fields of the common configuration.
VENDOR_AND_DEVICE = 0x10501AF4
COMMON, NOTIFY, _ISR, DEVICE = 1, 2, 3, 4
FIELDS = {"device_feature_select": (0, 4), "device_feature": (4, 4), "driver_feature_select": (8, 4), "driver_feature": (12, 4)}
FIELDS |= {"num_queues": (18, 2), "device_status": (20, 1), "queue_select": (22, 2), "queue_size": (24, 2), "queue_enable": (28, 2)}
FIELDS |= {"queue_notify_off": (30, 2), "queue_desc": (32, 8), "queue_driver": (40, 8), "queue_device": (48, 8)}
ACKNOWLEDGE, DRIVER, DRIVER_OK, FEATURES_OK, NEEDS_RESET = 1, 2, 4, 8, 64

# Features, by their bits (5.7.3 and 6).
VIRGL, EDID, RESOURCE_UUID, RESOURCE_BLOB, CONTEXT_INIT, INDIRECT_DESC, VERSION_1 = 0, 1, 2, 3, 4, 28, 32
WANTED = sum(1 << bit for bit in (EDID, RESOURCE_UUID, RESOURCE_BLOB, CONTEXT_INIT, INDIRECT_DESC, VERSION_1))

# Split virtqueues (2.7).
NEXT, WRITE, INDIRECT = 1, 2, 4
DESCRIPTOR = struct.Struct("<QIHH")

Queue = collections.namedtuple("Queue", "number size descriptors available used notify")
Picture = collections.namedtuple("Picture", "width height pixels")  # three bytes a pixel: red, green, blue


class Gone(Exception):
    """QEMU has ended, or says nothing more."""


class Silent(Exception):
    """A request isn't answered."""


def end_with_parent():
    """In QEMU's process, before it starts: it is killed where its parent ends without a word (PR_SET_PDEATHSIG)."""
    ctypes.CDLL(None).prctl(1, signal.SIGKILL)


def is_installed():
    return shutil.which(PROGRAM) is not None


class Line:
    """A socket to QEMU, read line by line."""

    def __init__(self, path, process):
        self.socket, self.left, self.process = socket.socket(socket.AF_UNIX), b"", process
        end = time.monotonic() + SECONDS
        while True:
            try:
                self.socket.connect(path)
                break
            except OSError:
                if process.poll() is not None or time.monotonic() > end:
                    raise Gone("it doesn't start") from None
                time.sleep(0.005)
        self.socket.settimeout(SECONDS)

    def write(self, text):
        try:
            self.socket.sendall(text)
        except OSError:
            raise Gone("it takes nothing more") from None

    def read(self):
        while b"\n" not in self.left:
            try:
                more = self.socket.recv(1 << 20)
            except OSError:
                more = b""
            if not more:
                raise Gone("it says nothing more")
            self.left += more
        line, _, self.left = self.left.partition(b"\n")
        return line


class Board:
    """The machine: its process, guest memory, ports, screens."""

    def __init__(self, device):
        self.folder = tempfile.TemporaryDirectory(prefix="vgpu-qemu-")
        path = self.folder.name
        words = [PROGRAM, "-machine", "q35", "-accel", "qtest", "-accel", "tcg", "-S", "-m", str(MEMORY), "-display", "none", "-nodefaults"]
        words += ["-device", device, "-qtest", f"unix:{path}/qtest,server=on,wait=off", "-qtest-log", "/dev/null"]
        words += ["-qmp", f"unix:{path}/qmp,server=on,wait=off"]
        self.said = open(f"{path}/said", "wb+")
        self.process = subprocess.Popen(words, stdin=subprocess.DEVNULL, stdout=self.said, stderr=self.said, preexec_fn=end_with_parent)
        try:
            self.qtest, self.qmp = Line(f"{path}/qtest", self.process), Line(f"{path}/qmp", self.process)
            version = json.loads(self.qmp.read())["QMP"]["version"]["qemu"]
            self.version = f"{version['major']}.{version['minor']}.{version['micro']}"
            self.ask("qmp_capabilities")
        except BaseException:
            self.close()
            raise

    def close(self):
        if self.process.poll() is None:
            self.process.kill()
        self.process.wait()
        self.said.close()
        self.folder.cleanup()

    def ended(self):
        """How it has ended by itself, with the last line that it said; None where it runs."""
        try:
            status = self.process.wait(0.5)
        except subprocess.TimeoutExpired:
            return None
        self.said.seek(0)
        return f"QEMU ended with status {status}: {self.said.read().decode(errors='replace').strip().split(chr(10))[-1]}"

    def __enter__(self):
        return self

    def __exit__(self, *_why):
        self.close()

    def ask(self, name, **words):
        """A command of QMP. None where it is refused."""
        self.qmp.write(json.dumps({"execute": name, "arguments": words}).encode() + b"\n")
        while True:
            said = json.loads(self.qmp.read())
            if "return" in said or "error" in said:
                return said.get("return")

    def does(self, *commands):
        """Commands of the protocol of tests, one after another, and what each gives: a number, bytes, or None."""
        self.qtest.write("".join(f"{command}\n" for command in commands).encode())
        found = []
        for command in commands:
            word, *value = self.qtest.read().decode().split()
            if word != "OK":
                raise Gone(f"it refuses {command[:60]}")
            reads_bytes = command.startswith("read ")
            found.append(None if not value else bytes.fromhex(value[0][2:]) if reads_bytes else int(value[0], 16))
        return found

    def write(self, address, some):
        if some:
            self.does(stored(address, some))

    def clear(self, address, size):
        self.does(f"memset {address:#x} {size:#x} 0x0")

    def picture(self, device, head):
        """What a screen shows, or None where it shows nothing."""
        path = f"{self.folder.name}/picture"
        if self.ask("screendump", device=device, head=head, filename=path) is None:
            raise Gone("there is no picture")
        with open(path, "rb") as file:
            kind, size, depth, pixels = file.read().split(b"\n", 3)
        width, height = map(int, size.split())
        # Behind each row there may be bytes that fill it up to a multiple of four.
        row = len(pixels) // height
        if (kind, depth) != (b"P6", b"255") or len(pixels) != row * height or row not in (3 * width, -(-3 * width // 4) * 4):
            raise Gone("a picture is in another form")
        if row > 3 * width:
            pixels = b"".join(pixels[at : at + 3 * width] for at in range(0, len(pixels), row))
        return Picture(width, height, pixels)


def stored(address, some):
    """The command that writes bytes, of which there has to be one."""
    return f"b64write {address:#x} {len(some):#x} {base64.b64encode(some).decode()}"


class Gpu:
    """The virtio-gpu of a board, as its driver sees it: found on the PCI bus, with features agreed on and two rings."""

    def __init__(self, scanouts, width, height, edid, most_bytes):
        """A display of so many pixels on the first of so many scanouts. All pixels have to have fewer than `most_bytes`."""
        words = f"virtio-gpu-pci,id=gpu,max_outputs={scanouts},xres={width},yres={height},max_hostmem={most_bytes}"
        words += f",edid={'on' if edid else 'off'}"
        self.board = Board(words)
        try:
            self.begin(WANTED if edid else WANTED & ~(1 << EDID))
        except BaseException:
            self.board.close()
            raise

    def __enter__(self):
        return self

    def __exit__(self, *_why):
        self.board.close()

    def begin(self, wanted):
        self.find()
        self.map()
        self.set("device_status", 0)
        self.set("device_status", ACKNOWLEDGE)
        self.set("device_status", ACKNOWLEDGE | DRIVER)
        self.offered = sum(self.feature_word(word) << 32 * word for word in (0, 1))
        self.features = self.offered & wanted
        if not self.features >> VERSION_1 & 1 or not self.features >> INDIRECT_DESC & 1:
            raise Gone("it doesn't offer VERSION_1 and INDIRECT_DESC")
        for word in (0, 1):
            self.set("driver_feature_select", word)
            self.set("driver_feature", self.features >> 32 * word & 0xFFFFFFFF)
        self.set("device_status", ACKNOWLEDGE | DRIVER | FEATURES_OK)
        if not self.get("device_status") & FEATURES_OK:
            raise Gone("it doesn't accept its own features")
        self.queues = {"control": self.queue(0, 64), "cursor": self.queue(1, 16)}
        self.published, self.back = {"control": 0, "cursor": 0}, {"control": 0, "cursor": 0}
        self.set("device_status", ACKNOWLEDGE | DRIVER | FEATURES_OK | DRIVER_OK)

    # PCI

    def config(self, at, size=4):
        command = {4: "inl 0xcfc", 2: f"inw {0xCFC + at % 4:#x}", 1: f"inb {0xCFC + at % 4:#x}"}[size]
        return self.board.does(f"outl 0xcf8 {self.place | at & 0xFC:#x}", command)[1]

    def configure(self, at, value):
        self.board.does(f"outl 0xcf8 {self.place | at:#x}", f"outl 0xcfc {value:#x}")

    def find(self):
        for slot in range(32):
            self.place = 0x80000000 | slot << 11
            if self.config(0) == VENDOR_AND_DEVICE:
                return
        raise Gone("there is no virtio-gpu on the bus")

    def map(self):
        """Finds the capabilities of virtio, gives their BAR an address, and lets the device read and write memory."""
        self.at, bars = {}, set()
        capability = self.config(0x34, 1)
        while capability:
            kind = self.config(capability + 3, 1)
            if self.config(capability, 1) == 9 and COMMON <= kind <= DEVICE:
                bars.add(self.config(capability + 4, 1))
                self.at[kind] = BAR + self.config(capability + 8)
                if kind == NOTIFY:
                    self.notify_step = self.config(capability + 16)
            capability = self.config(capability + 1, 1)
        if len(bars) != 1:
            raise Gone("its configuration isn't in one BAR")
        bar = 0x10 + 4 * bars.pop()
        self.configure(bar, BAR)
        if self.config(bar) & 6 == 4:
            self.configure(bar + 4, 0)
        self.configure(4, 6)

    def set(self, field, value):
        at, size = FIELDS[field]
        self.board.does(f"write{'bw_l___q'[size - 1]} {self.at[COMMON] + at:#x} {value:#x}")

    def get(self, field):
        at, size = FIELDS[field]
        return self.board.does(f"read{'bw_l___q'[size - 1]} {self.at[COMMON] + at:#x}")[0]

    def feature_word(self, word):
        self.set("device_feature_select", word)
        return self.get("device_feature")

    def scanouts(self):
        """num_scanouts and num_capsets of the device's configuration (5.7.4)."""
        return struct.unpack("<II", self.board.does(f"read {self.at[DEVICE] + 8:#x} 0x8")[0])

    # Rings

    def queue(self, number, most):
        self.set("queue_select", number)
        size = min(self.get("queue_size"), most)
        if size < 16:
            raise Gone("a queue has fewer than 16 descriptors")
        at = RINGS + 0x4000 * number
        notify = self.at[NOTIFY] + self.notify_step * self.get("queue_notify_off")
        queue = Queue(number, size, at, at + 0x1000, at + 0x2000, notify)
        self.board.clear(at, 0x3000)
        self.set("queue_size", size)
        self.set("queue_desc", queue.descriptors)
        self.set("queue_driver", queue.available)
        self.set("queue_device", queue.used)
        self.set("queue_enable", 1)
        return queue

    def is_broken(self):
        return bool(self.get("device_status") & NEEDS_RESET)

    def publish(self, name, request, room, shape):
        """Lays a request out, and puts it on a ring."""
        chain, table = layout(shape, len(request), room)
        commands = [stored(REQUEST, request)] if request else []
        commands += [stored(self.queues[name].descriptors, described(chain))]
        commands += [stored(TABLE, described(table))] if table else []
        self.board.does(*commands, *self.offered_at(name, 0))

    def offered_at(self, name, head):
        """The commands that put a head on a ring and tell the device."""
        queue, count = self.queues[name], self.published[name]
        self.published[name] = (count + 1) % 65536
        yield f"writew {queue.available + 4 + 2 * (count % queue.size):#x} {head:#x}"
        yield f"writew {queue.available + 2:#x} {self.published[name]:#x}"
        yield f"writew {queue.notify:#x} {queue.number:#x}"

    def returned(self, name, room):
        """The next head that comes back on a ring, with as many bytes of the response's room as the ring says that were written."""
        queue, count = self.queues[name], self.back[name]
        element = queue.used + 4 + 8 * (count % queue.size)
        look = [f"readw {queue.used + 2:#x}", f"read {element:#x} 0x8"] + [f"read {RESPONSE:#x} {room:#x}"] * (room > 0)
        end = time.monotonic() + PATIENCE
        while True:
            index, used, *response = self.board.does(*look)
            if index != count:
                break
            if time.monotonic() > end:
                raise Silent("the device is broken" if self.is_broken() else "no answer")
        self.back[name] = (count + 1) % 65536
        head, length = struct.unpack("<II", used)
        if head not in (0, BEHIND) or (head == 0 and length > room):
            raise Gone(f"the used element is {head}, {length}")
        return head, response[0][:length] if room else b""

    def command(self, name, request, room, shape="plain"):
        """The response to a request."""
        self.publish(name, request, room, shape)
        return self.returned(name, room)[1]

    def command_or_none(self, name, request, room, shape="plain"):
        """The response to a request that may never have one: None where a request behind it on the control queue is answered first."""
        self.publish(name, request, room, shape)
        queue = self.queues[name]
        chain = [(ASKED_BEHIND, 24, NEXT, BEHIND + 1), (ASKED_BEHIND + 24, 24, WRITE, 0)]
        info = struct.pack("<I20x", 0x100)
        self.board.does(stored(ASKED_BEHIND, info), stored(queue.descriptors + 16 * BEHIND, described(chain)), *self.offered_at(name, BEHIND))
        head, response = self.returned(name, room)
        if head == BEHIND:
            return None
        self.returned(name, room)
        return response

    def picture(self, scanout):
        return self.board.picture("gpu", scanout)


def described(chain):
    return b"".join(DESCRIPTOR.pack(*one) for one in chain)


def linked(parts):
    """Descriptors that follow one another in a table."""
    last = len(parts) - 1
    return [(at, size, flags | (NEXT if n < last else 0), n + 1 if n < last else 0) for n, (at, size, flags) in enumerate(parts)]


def layout(shape, size, room):
    """The descriptors of a request of so many bytes, from place 0 on, and those of an indirect table (docs/JOURNAL.md, Requests)."""
    answer = [(RESPONSE, room, WRITE)] * (room > 0)
    if shape.startswith("pieces"):
        step = -(-size // int(shape[6:]))
        pieces = [(REQUEST + at, min(step, size - at), 0) for at in range(0, size, step)] if size else []
        return linked(pieces + answer), []
    whole = [(REQUEST, size, 0)] * (size > 0) + answer
    if shape == "plain":
        return linked(whole), []
    if shape == "indirect":
        return [(TABLE, 16 * len(whole), INDIRECT, 0)], linked(whole)
    front = min(size, 24)
    rest = [(REQUEST + front, size - front, 0)] * (size > front) + answer
    if shape != "mixed" or not front:
        raise ValueError(f"{shape} isn't laid out")
    if not rest:
        return linked(whole), []
    return [(REQUEST, front, NEXT, 1), (TABLE, 16 * len(rest), INDIRECT, 0)], linked(rest)
