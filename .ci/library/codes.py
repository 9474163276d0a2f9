"""Each code of the library, met by what it stands for. What the guide shows of modules that are refused is asked of the library,
with the fault that the guide names; and each sentence is the guide's."""
import ctypes
import itertools
import os
import re

from driven import MOST, ROOT, generate, wolqedir
from wolqedir import Host, Refused

GUIDES = [os.path.join(ROOT, "docs", "guide", page) for page in ("script.md", "library.md")]
# A body of 257 times i32.const 0.
HIGH = bytes.fromhex("0061736d01000000010401600000030201000a870401840400") + bytes.fromhex("4100") * 257 + b"\x0b"
# That it was done; a scan of a host whose frames and slots are 2^32 together, for which there is no room; and faults of the swap
# device, which lies in memory.
UNMET = {"0", "7", "S1", "S2", "S3"}


def named(code):
    """The name of a fault, or the number of a code of the library's own."""
    return wolqedir.fault_of(code) or str(code)


def sentences():
    """The sentences of the guide's tables, without their marks, by the names of faults; and its modules that are refused."""
    texts, modules = {}, []
    for line in itertools.chain.from_iterable(map(open, GUIDES)):
        cells = [cell.strip() for cell in line.strip().strip("|").split("|")]
        for name, text in zip(cells, cells[1:]):
            if re.fullmatch(r"[DVLATHSF]\d+", name):
                texts.setdefault(name, re.sub(r"\[([^\]]*)\]\([^)]*\)", r"\1", text).replace("`", ""))
        modules += re.findall(r"\| `module \w+ ([0-9a-f]+)` \|.*`([DVL]\d+)", line)
    return {**texts, "L3": texts["D13"]}, modules


def codes():
    """All codes that there are, by the header."""
    families = enumerate([0, 13, 11, 3, 2, 9, 8, 10, 3, 4])
    return [*range(10), *(256 * family + number for family, most in families for number in range(1, most + 1))]


def texts():
    """Whether each code has its sentence, the guide's where that has one, and no other number has one. How many there are."""
    guide, _ = sentences()
    told = {named(code): wolqedir.code_text(code) for code in codes()}
    other = [(name, text, guide.get(name)) for name, text in told.items() if not text or text != guide.get(name, text)]
    assert not other, other
    assert len(guide) == 60, len(guide)
    known = set(codes())
    others = [code for code in range(4096) if (wolqedir.code_text(code) is not None) != (code in known)]
    assert not others and wolqedir.code_text(2**32 - 1) is None, others
    return len(known)


def code_of(act):
    """The code of what is refused."""
    try:
        act()
    except Refused as refused:
        return named(refused.code)
    return "0"


def pool(name):
    return generate.POOL[name][0]


def of_modules():
    """The codes of modules: the guide's, and the 1025th."""
    _, modules = sentences()
    with Host() as host:
        for digits, wanted in modules:
            found = code_of(lambda: host.load(bytes.fromhex(digits)))
            assert found == wanted, (digits, found, wanted)
            yield found
        yield code_of(lambda: host.load(HIGH))
        for _ in range(1024):
            host.load(pool("empty"))
        yield code_of(lambda: host.load(pool("empty")))


def not_unloaded(host, wanted, module):
    """The code by which a module isn't let go. The host is as it was."""
    before = host.report()
    found = code_of(lambda: host.unload(module))
    assert found == wanted and host.report() == before, (wanted, found)
    return found


def of_unloads():
    """The codes of modules that go."""
    with Host() as host:
        seven = host.load(pool("seven"))
        yield not_unloaded(host, "A1", seven + 1)
        a = host.admit(seven, max=16)
        yield not_unloaded(host, "8", seven)
        host.release(a)
        host.unload(seven)
        yield not_unloaded(host, "A1", seven)
        yield code_of(lambda: host.admit(seven, max=16))


def of_admissions():
    with Host(frames=8192, slots=65536) as host:
        seven, pages = host.load(pool("seven")), host.load(pool("pages"))
        beyond = host.load(pool("beyond"))
        yield code_of(lambda: host.admit(99))
        yield code_of(lambda: host.admit(seven, shares=0))
        yield code_of(lambda: host.admit(seven, min=1))
        yield code_of(lambda: host.admit(seven, min=8193, max=8193))
        yield code_of(lambda: host.admit(seven, min=2, max=65536, shares=1) and host.admit(seven, min=2, max=65536))
        yield code_of(lambda: host.admit(pages, min=2, max=2))
        yield code_of(lambda: host.admit(beyond, min=2, max=16))
    with Host(frames=8192 + 2, slots=8192) as host:
        empty = host.load(pool("empty"))
        for _ in range(4096):
            host.admit(empty, min=2, max=2)
        yield code_of(lambda: host.admit(empty, min=2, max=2))


def of_requests():
    with Host() as host:
        seven, trapping = host.load(pool("seven")), host.load(pool("trapping"))
        a, dead = host.admit(seven, max=16), host.admit(trapping, max=16, fuel=MOST)
        host.run(MOST)
        yield code_of(lambda: host.invoke(dead, "f", fuel=MOST))
        yield code_of(lambda: host.invoke(a, "g", fuel=MOST))
        yield code_of(lambda: host.invoke(a, b"\xff", fuel=MOST))
        yield code_of(lambda: host.invoke(a, "f", [1], fuel=MOST))
        yield code_of(lambda: host.refuel(a, 1))
        yield code_of(lambda: host.status(a, 1))
        for _ in range(1024):
            host.invoke(a, "f", fuel=MOST)
        yield code_of(lambda: host.invoke(a, "f", fuel=MOST))
        for at in range(1025, 65536):
            host.run(MOST)
            assert host.invoke(a, "f", fuel=MOST) == at
        host.run(MOST)
        yield code_of(lambda: host.invoke(a, "f", fuel=MOST))
        host.release(a)
        yield code_of(lambda: host.invoke(a, "f", fuel=MOST))


def not_copied(host, wanted, instance, max=32, **quota):
    """The code by which an instance isn't copied. The host is as it was."""
    before = host.report()
    found = code_of(lambda: host.fork(instance, max=max, **quota))
    assert found == wanted and host.report() == before, (wanted, found)
    return found


def of_reads():
    """The codes of bytes that aren't there."""
    with Host() as host:
        pages, empty = host.load(pool("pages")), host.load(pool("empty"))
        a, b = host.admit(pages, max=32), host.admit(empty, max=16)
        for instance, length in ((a, 65536), (b, 0)):
            assert host.read(instance, 0, length) == bytes(length) and host.read(instance, length, 0) == b""
            for address, count in ((0, length + 1), (length, 1), (length + 1, 0), (MOST, 0), (MOST, 1), (MOST - 1, 2**28)):
                found = code_of(lambda: host.read(instance, address, count))
                assert found == "9", (address, count, found)
        host.release(a)
        assert code_of(lambda: host.read(a, 0, 0)) == "H1"
    yield found


def of_forks():
    """The codes of copies."""
    with Host(frames=6, slots=65536) as host:
        pages, trapping = host.load(pool("pages")), host.load(pool("trapping"))
        a, dead = host.admit(pages, max=32), host.admit(trapping, max=16, fuel=MOST)
        host.invoke(a, "fill", [0, 6, 1], fuel=MOST)

        yield not_copied(host, "F1", a)
        host.run(MOST)
        yield not_copied(host, "F2", dead, 16)
        yield not_copied(host, "F3", a, 16)
        host.release(dead)
        b = host.admit(pages, max=32)
        host.invoke(b, "fill", [0, 2, 1], fuel=MOST)
        host.run(MOST)
        yield not_copied(host, "F4", a)
        host.release(b)
        yield not_copied(host, "H1", b)
        quotas = {"A2": {"shares": 0}, "A3": {"min": 1}, "A4": {"min": 5}, "A5": {"max": 65536}, "A7": {"max": 15}}
        for wanted, quota in quotas.items():
            yield not_copied(host, wanted, a, **quota)
    with Host(frames=8192 + 2, slots=8192) as host:
        a = host.admit(host.load(pool("empty")), max=2)
        for _ in range(4095):
            host.fork(a, max=2)
        yield not_copied(host, "A6", a, 2)


# Calls that trap: of which module, of which export, with which arguments.
TRAPS = {
    "T2": ("wide", "div_s", [1, 0]),
    "T3": ("wide", "div_s", [1 << 63, -1]),
    "T4": ("pages", "get", [-1]),
    "T8": ("hosted", "emit", [0, 4097]),
    "T10": ("deep", "down", [500]),
}


def trap_of(name, export, args, times=1):
    """The code of the last of so many calls of a new instance."""
    with Host() as host:
        instance = host.admit(host.load(pool(name)), max=48, fuel=MOST)
        calls = [host.invoke(instance, export, args, fuel=MOST) for _ in range(times)]
        host.run(MOST)
        return host.status(instance, calls[-1]).fault


def of_traps():
    for wanted, (name, export, args) in TRAPS.items():
        found = trap_of(name, export, args)
        assert found == wanted, (wanted, found)
        yield found
    yield trap_of("hosted", "emit", [0, 4096], 17)


def of_handles():
    """The codes of handles, and what they leave as it was."""
    empty, lib = wolqedir.Handle(), wolqedir.lib
    for _ in range(2):
        lib.wq_host_free(empty)
        assert (empty.full, empty.at) == (0, None)
    report, length, rows = wolqedir.RawReport(frames=9), ctypes.c_size_t(77), (wolqedir.RawRow * 1)()
    rows[0].min = 9
    yield named(lib.wq_report_of(empty, report))
    counts = wolqedir.RawCounts(turns=9)
    yield named(lib.wq_counts_of(empty, counts))
    row = wolqedir.RawRow(min=9)
    yield named(lib.wq_instance_report_of(empty, wolqedir.RawInstance(), row))
    assert (counts.turns, row.min) == (9, 9)
    yield named(lib.wq_instance_reports(empty, rows, 1, length))
    assert (report.frames, length.value, rows[0].min) == (9, 77, 9)
    yield code_of(lambda: Host(tax=(4, 4)))
    yield code_of(lambda: Host(tax=(1, 1001)))
    with Host() as host:
        for most in (16, 32):
            host.admit(host.load(pool("seven")), max=most)
        before = host.report()
        yield named(lib.wq_host_new(host.handle, 8, 8, 0, 1))
        assert host.report() == before
        assert named(lib.wq_instance_reports(host.handle, rows, 1, length)) == "0"
        assert (length.value, wolqedir.reported(rows[0], host.serial)) == (2, before.instances[0])
    yield named(lib.wq_scan(host.handle))


def met():
    """The codes that come."""
    return {code for part in (of_modules, of_unloads, of_admissions, of_requests, of_reads, of_forks, of_traps, of_handles) for code in part()}
