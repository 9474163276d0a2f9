"""A host of many WebAssembly instances on one memory, each of which gets what it would get alone: the library `wolqedir`, by
ctypes. WOLQEDIR_SO names the shared library, which docs/guide/library.md says how to make of the archive.

    with Host() as host:
        module = host.load(open("hello.wasm", "rb").read())
        instance = host.admit(module, inputs=[40, 2])
        call = host.invoke(instance, "run", fuel=1000)
        host.run(1000000)
        print(host.status(instance, call))

A host has 1024 modules at once; an instance has 65535 calls beside its start, and puts out 65536 bytes at most.

What the library refuses raises Refused, with the code and its sentence. A number beyond its range raises OverflowError, what is no
integer TypeError, an instance of another host ValueError; the library isn't asked then. The host is as it was at each of these."""
import ctypes
import functools
import itertools
import operator
import os
import threading
from ctypes import POINTER, Structure, byref, c_int64, c_size_t, c_uint8, c_uint32, c_uint64, c_void_p
from dataclasses import dataclass
from typing import NamedTuple, Optional

__version__ = "0.1.0"

KINDS = {1: "waiting", 2: "going", 3: "fuel", 4: "frame", 5: "device", 6: "returned", 7: "trapped", 8: "cancelled", 9: "dead"}
FAMILIES = " DVLMAHTSF"
MOST = 2**64 - 1
SLICE = 1000000
# Bytes of the largest memory: 65536 frames of 4096.
LARGEST = 2**28
SERIALS = itertools.count()


def within(what, value, least, most):
    """The integer, which has to be one from `least` to `most`, else OverflowError; TypeError where it is none."""
    value = operator.index(value)
    if not least <= value <= most:
        raise OverflowError(f"{what} is {value}, and has to be a number from {least} to {most}")
    return value


def u32(what, value):
    """An integer from 0 to 2^32 - 1."""
    return within(what, value, 0, 2**32 - 1)


def u64(what, value):
    """An integer from 0 to 2^64 - 1."""
    return within(what, value, 0, MOST)


def word(what, value, bits=64):
    """The bits of an integer from -2^(bits - 1) to 2^bits - 1, which is signed or unsigned."""
    return within(what, value, -(2 ** (bits - 1)), 2**bits - 1) % 2**bits


class Handle(Structure):
    """A host, or none; the library alone writes it."""

    _fields_ = [("full", c_uint32), ("at", c_void_p)]


class RawInstance(Structure):
    _fields_ = [("place", c_uint64), ("number", c_uint64)]


@dataclass(frozen=True)
class Instance:
    """An instance, as it was admitted: the serial of its host, which no other host of the process has; its place there, which may
    be given again; and its number, which isn't. It compares, hashes and pickles by these."""

    host: int
    place: int
    number: int


class Params(Structure):
    _fields_ = [(name, c_uint64) for name in ("shares", "min", "max", "fuel", "salt")] + [("base", c_uint32)]


class Quota(Structure):
    _fields_ = [(name, c_uint64) for name in ("shares", "min", "max")]


class Progress(Structure):
    _fields_ = [("charges", c_uint64), ("goes_on", c_uint32)]


class Told(Structure):
    _fields_ = [("kind", c_uint32), ("code", c_uint32), ("bits", c_uint32), ("value", c_uint64), ("charges", c_uint64)]


class RawExport(Structure):
    _fields_ = [(name, c_size_t) for name in ("name_len", "params", "results")]


class RawReport(Structure):
    _fields_ = [(name, c_uint32) for name in ("frames", "used_frames", "slots", "used_slots", "shared_frames")]
    _fields_ += [("tax_num", c_uint32), ("tax_den", c_uint32), ("sharers", c_uint64), ("instances", c_size_t)]


class RawCounts(Structure):
    _fields_ = [(name, c_uint64) for name in ("turns", "charges", "returned", "trapped", "cancelled", "dead")]
    _fields_ += [(name, c_uint64) for name in ("offers", "merges", "breaks", "evictions", "fetches", "faults")]


class RawRow(Structure):
    _fields_ = [("instance", RawInstance)]
    _fields_ += [(name, c_uint32) for name in ("shares", "min", "max", "charged", "active", "swapped")]


class Status(NamedTuple):
    """How far a call is. `kind` is one of KINDS; `value` is the result by the signed reading, or None; `fault` names the trap or
    the fault of the swap device, as T4."""

    kind: str
    value: Optional[int]
    charges: int
    fault: Optional[str]


class Export(NamedTuple):
    """A function that a module exports: its name, and the types of its parameters and of its result, i32 or i64; None without
    one."""

    name: str
    params: list
    result: Optional[str]


class Ran(NamedTuple):
    """What a run came to."""

    charges: int
    goes_on: bool


class InstanceReport(NamedTuple):
    """What an instance has of a host's memory: which it is, what it was promised, how many frames are charged to it, on how many of
    these a page was touched, and how many of its pages are swapped."""

    instance: Instance
    shares: int
    min: int
    max: int
    charged: int
    active: int
    swapped: int


class Counts(NamedTuple):
    """What a host has counted since it was made, each from 2**64 - 1 on to 0: turns of instances with an open call, and their
    charges; calls by their ends; pages that were offered for sharing, that were merged, and that shared a frame until they were
    written; pages that went to swap, and that came back; and faults of the swap device, of which one in memory has none."""

    turns: int
    charges: int
    returned: int
    trapped: int
    cancelled: int
    dead: int
    offers: int
    merges: int
    breaks: int
    evictions: int
    fetches: int
    faults: int


class Report(NamedTuple):
    """How the frames, slots and pages of a host are used; `sharers` pages lie on `shared_frames`."""

    frames: int
    used_frames: int
    slots: int
    used_slots: int
    shared_frames: int
    sharers: int
    tax: tuple
    instances: list


class Entry(NamedTuple):
    """A call of a transcript: the index of its function, if it has one; its arguments and its fuel in all; the pieces of data
    segments that it wrote, and its charges; `kind` is one of KINDS, or open; `result` is the word that it returned, or the number
    of its trap."""

    function: Optional[int]
    args: list
    fuel: int
    pieces: int
    charges: int
    kind: str
    result: Optional[int]


class Refused(Exception):
    """Why a host doesn't do what is asked. `fault` is the name that scripts show, as A4, or None for a code of the library's
    own."""

    def __init__(self, code):
        super().__init__(code)
        self.code, self.fault = code, fault_of(code)

    def __str__(self):
        return f"{self.fault or self.code}: {code_text(self.code)}"


# The exports by their names, with the types of their parameters as the header has them.
HOST, BYTES, LENGTH, IT = POINTER(Handle), POINTER(c_uint8), POINTER(c_size_t), POINTER(RawInstance)
EXPORTS = {
    "wq_host_new": [HOST, c_uint32, c_uint32, c_uint32, c_uint32],
    "wq_host_free": [HOST],
    "wq_load": [HOST, BYTES, c_size_t, LENGTH],
    "wq_unload": [HOST, c_size_t],
    "wq_export_count": [HOST, c_size_t, LENGTH],
    "wq_export_at": [HOST, c_size_t, c_size_t, POINTER(RawExport), BYTES, c_size_t, BYTES, c_size_t],
    "wq_admit": [HOST, c_size_t, POINTER(Params), POINTER(c_uint64), c_size_t, IT],
    "wq_fork": [HOST, IT, POINTER(Quota), IT],
    "wq_invoke": [HOST, IT, BYTES, c_size_t, POINTER(c_int64), c_size_t, c_uint64, POINTER(c_uint32)],
    "wq_invoke_at": [HOST, IT, c_size_t, POINTER(c_int64), c_size_t, c_uint64, POINTER(c_uint32)],
    "wq_run": [HOST, c_uint64, POINTER(Progress)],
    "wq_status_of": [HOST, IT, c_uint32, POINTER(Told)],
    "wq_ended": [HOST, IT, c_size_t, POINTER(Told), c_size_t, LENGTH],
    "wq_refuel": [HOST, IT, c_uint64],
    "wq_retry": [HOST, IT],
    "wq_cancel": [HOST, IT],
    "wq_release": [HOST, IT, LENGTH],
    "wq_taken": [HOST, BYTES, c_size_t, LENGTH],
    "wq_output_of": [HOST, IT, c_size_t, BYTES, c_size_t, LENGTH],
    "wq_read": [HOST, IT, c_uint64, BYTES, c_size_t],
    "wq_scan": [HOST],
    "wq_epoch": [HOST],
    "wq_report_of": [HOST, POINTER(RawReport)],
    "wq_counts_of": [HOST, POINTER(RawCounts)],
    "wq_instance_report_of": [HOST, IT, POINTER(RawRow)],
    "wq_instance_reports": [HOST, POINTER(RawRow), c_size_t, LENGTH],
    "wq_transcript_of": [HOST, IT, POINTER(c_uint64), c_size_t, LENGTH],
    "wq_code_text": [c_uint32, BYTES, c_size_t, LENGTH],
}


def opened(path):
    """The library at this path."""
    found = ctypes.CDLL(path)
    for name, types in EXPORTS.items():
        export = getattr(found, name)
        export.argtypes, export.restype = types, None if name == "wq_host_free" else c_uint32
    return found


lib = opened(os.environ.get("WOLQEDIR_SO", "libwolqedir.so"))


def array(kind, items):
    """An array of these items. A pointer to it is never null, also where there are none."""
    return (kind * max(len(items), 1))(*items)


def octets(data):
    """An array of these bytes, as above, and how many they are. A view of words has all their bytes."""
    data = bytes(memoryview(data))
    return (c_uint8 * max(len(data), 1)).from_buffer_copy(data or b"\0"), len(data)


def signed(value, bits):
    """A number of so many bits by the signed reading."""
    return value - (1 << bits) if value >> (bits - 1) else value


def fault_of(code):
    """The name of a fault, as A4, or None for a code of the library's own."""
    return f"{FAMILIES[code >> 8]}{code & 255}" if 0 < code >> 8 < len(FAMILIES) else None


def must(code):
    """Raises what was refused."""
    if code:
        raise Refused(code)


def laid(call, kind=c_uint8):
    """What a call lays into a room, as a list: first it tells how many items there are. What it refuses is raised."""
    room, length, cap = array(kind, []), c_size_t(), 0
    while True:
        must(call(room, cap, byref(length)))
        if length.value <= cap:
            return room[: length.value]
        room, cap = (kind * length.value)(), length.value


def reported(row, serial):
    """What a row says of an instance of the host with this serial."""
    instance = Instance(serial, row.instance.place, row.instance.number)
    return InstanceReport(instance, row.shares, row.min, row.max, row.charged, row.active, row.swapped)


def status_of(told):
    """How far a call is, of which the library tells this."""
    value = signed(told.value, told.bits) if told.bits else None
    return Status(KINDS[told.kind], value, told.charges, fault_of(told.code))


def code_text(code):
    """The sentence for a code, 0 to 2^32 - 1, or None."""
    room, length = (c_uint8 * 128)(), c_size_t()
    if lib.wq_code_text(u32("code", code), room, len(room), byref(length)):
        return None
    return bytes(room[: min(length.value, len(room))]).decode()


def entries(words):
    """The calls that these words tell of."""
    while words:
        function, fuel, pieces, charges, kind, count, result, n = words[:8]
        result = result if kind == 7 or count else None
        function = None if function == MOST else function
        yield Entry(function, words[8 : 8 + n], fuel, pieces, charges, KINDS.get(kind, "open"), result)
        words = words[8 + n :]


def alone(method):
    """A method that one thread at a time calls of a host. Who waits for it goes before the next slice of a run."""

    @functools.wraps(method)
    def called(self, *args, **named):
        with self.door, self.lock:
            return method(self, *args, **named)

    return called


class Host:
    """A host. Threads may share it: one call at a time is made, between two slices of a run. A signal's handler may call it too, but
    for `release` within `release`, which raises RuntimeError; the child of os.fork may not. It is let go at the end of a `with`, or by
    `close`; then each call raises Refused, by code 1."""

    def __init__(self, frames=1024, slots=4096, tax=(3, 4)):
        """Makes a host with so many frames of 4096 bytes and slots for swapped pages, 0 to 2^32 - 1 each, and with this tax on idle
        frames, a pair of numerator and denominator."""
        self.handle, self.serial = Handle(), next(SERIALS)  # All bytes 0: no host.
        self.door, self.lock, self.releases = threading.RLock(), threading.RLock(), False
        num, den = tax
        frames, slots, num, den = u32("frames", frames), u32("slots", slots), u32("tax[0]", num), u32("tax[1]", den)
        must(lib.wq_host_new(self.handle, frames, slots, num, den))

    def __enter__(self):
        return self

    def __exit__(self, *_):
        self.close()

    def __del__(self):
        if hasattr(self, "lock"):  # Else it was never made.
            self.close()

    @alone
    def close(self):
        """Lets the host go. A second time does no harm."""
        lib.wq_host_free(self.handle)

    def named(self, instance):
        """The instance for the library. That of another host raises ValueError."""
        if not isinstance(instance, Instance):
            raise TypeError(f"an Instance is wanted, and not {type(instance).__name__}")
        if instance.host != self.serial:
            raise ValueError("the instance is of another host")
        return RawInstance(u64("place", instance.place), u64("number", instance.number))

    @alone
    def load(self, data):
        """Keeps the module of these bytes, or whatever else has a buffer: its number, which is never given again."""
        (room, length), number = octets(data), c_size_t()
        must(lib.wq_load(self.handle, room, length, byref(number)))
        return number.value

    @alone
    def unload(self, module):
        """Lets the module of this number, 0 to 2^64 - 1, go, if no instance is of it: its memory is given back."""
        must(lib.wq_unload(self.handle, u64("module", module)))

    @alone
    def exports(self, module):
        """The functions that the module of this number exports, 0 to 2^64 - 1, in its order."""
        module, count = u64("module", module), c_size_t()
        must(lib.wq_export_count(self.handle, module, byref(count)))
        return [self.export_at(module, at) for at in range(count.value)]

    def export_at(self, module, at):
        """The function at this place of those."""
        found, no = RawExport(), array(c_uint8, [])
        must(lib.wq_export_at(self.handle, module, at, found, no, 0, no, 0))
        cap, most = found.name_len, found.params + found.results
        name, types = (c_uint8 * max(cap, 1))(), (c_uint8 * max(most, 1))()
        must(lib.wq_export_at(self.handle, module, at, found, name, cap, types, most))
        kinds = [f"i{bits}" for bits in types[:most]]
        return Export(bytes(name[:cap]).decode(), kinds[: found.params], kinds[found.params] if found.results else None)

    @alone
    def admit(self, module, shares=100, min=2, max=64, fuel=0, salt=0, base=0, inputs=()):
        """Admits an instance of a module. `fuel` is for its start. The module's number, `shares`, `min`, `max` and `fuel` are 0 to
        2^64 - 1; `salt` and each input -2^63 to 2^64 - 1, `base` -2^31 to 2^32 - 1, in the bits of their types, signed or not."""
        given = [u64(*pair) for pair in (("shares", shares), ("min", min), ("max", max), ("fuel", fuel))]
        params = Params(*given, word("salt", salt), word("base", base, 32))
        words, raw = [word("an input", item) for item in inputs], RawInstance()
        must(lib.wq_admit(self.handle, u64("module", module), params, array(c_uint64, words), len(words), raw))
        return Instance(self.serial, raw.place, raw.number)

    @alone
    def fork(self, instance, shares=100, min=2, max=64):
        """Copies an instance all of whose calls have ended: the copy begins as that one is, with its memory, globals, table, calls and
        output, and has its own quota, whose numbers are 0 to 2^64 - 1. They share all frames until one of them writes: no frame is
        taken, and no byte copied."""
        quota, raw = Quota(*(u64(*pair) for pair in (("shares", shares), ("min", min), ("max", max)))), RawInstance()
        must(lib.wq_fork(self.handle, self.named(instance), quota, raw))
        return Instance(self.serial, raw.place, raw.number)

    @alone
    def invoke(self, instance, name, args=(), *, fuel):
        """Asks for a call that may take so many charges, 0 to 2^64 - 1, and runs nothing: its place among the calls of the
        instance, of which the start is 0. The name is a text or bytes. Each argument is -2^63 to 2^64 - 1, and is passed by the
        signed reading of its 64 bits: 2^64 - 1 is -1, for an i32 too."""
        room, length = octets(name.encode() if isinstance(name, str) else name)
        words, call = [signed(word("an argument", arg), 64) for arg in args], c_uint32()
        given = array(c_int64, words), len(words), u64("fuel", fuel)
        must(lib.wq_invoke(self.handle, self.named(instance), room, length, *given, byref(call)))
        return call.value

    @alone
    def invoke_at(self, instance, at, args=(), *, fuel):
        """Asks for a call as `invoke` does, of the function at this place of those that `exports` tells, 0 to 2^64 - 1."""
        words, call = [signed(word("an argument", arg), 64) for arg in args], c_uint32()
        given = array(c_int64, words), len(words), u64("fuel", fuel)
        must(lib.wq_invoke_at(self.handle, self.named(instance), u64("at", at), *given, byref(call)))
        return call.value

    def run(self, charges):
        """Lets all calls go on, until none can or they have taken so many charges together, 0 to 2^64 - 1. It does so by slices of
        1000000, between which signals are handled, as the keyboard's, and other threads have their calls. Each slice that begins
        behind 1000000 charges begins an epoch."""
        left, taken = u64("charges", charges), 0
        while True:
            with self.door:
                pass  # Whoever waits goes first.
            with self.lock:
                progress = Progress()
                must(lib.wq_run(self.handle, min(left, SLICE), progress))
            left, taken = left - progress.charges, taken + progress.charges
            if left == 0 or not progress.goes_on:
                return Ran(taken, progress.goes_on != 0)

    @alone
    def status(self, instance, call):
        """How far a call is, which is 0 to 2^32 - 1."""
        told = Told()
        must(lib.wq_status_of(self.handle, self.named(instance), u32("call", call), told))
        return status_of(told)

    @alone
    def ended(self, instance, since=0):
        """How the calls of an instance have ended, from this place among its calls on, 0 to 2^64 - 1, each as `status` tells it."""
        raw, since = self.named(instance), u64("since", since)
        return [status_of(told) for told in laid(lambda room, cap, into: lib.wq_ended(self.handle, raw, since, room, cap, into), Told)]

    @alone
    def output(self, instance, since=0):
        """What an instance has put out so far, from the byte at this place on, 0 to 2^64 - 1: what `release` would give now."""
        raw, since, length = self.named(instance), u64("since", since), c_size_t()
        must(lib.wq_output_of(self.handle, raw, since, array(c_uint8, []), 0, byref(length)))
        room = (c_uint8 * max(length.value - since, 1))()
        must(lib.wq_output_of(self.handle, raw, since, room, len(room), byref(length)))
        return bytes(room[: max(length.value - since, 0)])

    @alone
    def read(self, instance, address, length):
        """The bytes of an instance's memory from this address on, 0 to 2^64 - 1, as it sees them between two of its turns: so many,
        0 to 2^28, which is the most that a memory has. A page in swap stays there."""
        raw, address, length = self.named(instance), u64("address", address), within("length", length, 0, LARGEST)
        room = (c_uint8 * max(length, 1))()
        must(lib.wq_read(self.handle, raw, address, room, length))
        return ctypes.string_at(room, length)

    @alone
    def refuel(self, instance, fuel):
        """Gives the present call so much more fuel, 0 to 2^64 - 1."""
        must(lib.wq_refuel(self.handle, self.named(instance), u64("fuel", fuel)))

    @alone
    def retry(self, instance):
        """Lets the present call try again where the swap device has failed."""
        must(lib.wq_retry(self.handle, self.named(instance)))

    @alone
    def cancel(self, instance):
        """Ends the present call where it is."""
        must(lib.wq_cancel(self.handle, self.named(instance)))

    @alone
    def release(self, instance):
        """Lets an instance go: the bytes that it had put out."""
        if self.releases:
            raise RuntimeError("an instance is being released")
        self.releases = True
        try:
            must(lib.wq_release(self.handle, self.named(instance), byref(c_size_t())))
            return bytes(laid(lambda room, cap, into: lib.wq_taken(self.handle, room, cap, into)))
        finally:
            self.releases = False

    @alone
    def scan(self):
        """Merges equal pages. No instance sees it."""
        must(lib.wq_scan(self.handle))

    @alone
    def epoch(self):
        """Marks all pages as not touched, as runs do too."""
        must(lib.wq_epoch(self.handle))

    @alone
    def report(self):
        """How the frames, slots and pages are used, and what each instance has of them, by number."""
        raw = RawReport()
        must(lib.wq_report_of(self.handle, raw))
        rows = laid(lambda room, cap, into: lib.wq_instance_reports(self.handle, room, cap, into), RawRow)
        used = raw.frames, raw.used_frames, raw.slots, raw.used_slots, raw.shared_frames, raw.sharers
        return Report(*used, (raw.tax_num, raw.tax_den), [reported(row, self.serial) for row in rows])

    @alone
    def report_of(self, instance):
        """What an instance has of them."""
        row = RawRow()
        must(lib.wq_instance_report_of(self.handle, self.named(instance), row))
        return reported(row, self.serial)

    @alone
    def counts(self):
        """What it has counted since it was made."""
        raw = RawCounts()
        must(lib.wq_counts_of(self.handle, raw))
        return Counts(*(getattr(raw, name) for name in Counts._fields))

    @alone
    def transcript(self, instance):
        """The calls of an instance in the order of their coming, the first of which is the start."""
        raw = self.named(instance)
        return list(entries(laid(lambda room, cap, into: lib.wq_transcript_of(self.handle, raw, room, cap, into), c_uint64)))
