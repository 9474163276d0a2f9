"""Each integer that the Python module takes, at the edges of its range: what the library gets behind ctypes is what was given, and
beyond the edges the library isn't asked. The library is a stand-in here, of functions for C that keep what they get."""
import ctypes
import functools
from contextlib import contextmanager

from driven import MOST, wolqedir
from wolqedir import Host, Instance

U32, U64, I64, I32 = (0, 2**32 - 1), (0, 2**64 - 1), (-(2**63), 2**64 - 1), (-(2**31), 2**32 - 1)


class Standin:
    """A library whose exports keep their last arguments, and answer that it was done."""

    def __init__(self):
        self.got = {}
        for name, types in wolqedir.EXPORTS.items():
            kind = ctypes.CFUNCTYPE(None if name == "wq_host_free" else ctypes.c_uint32, *types)
            setattr(self, name, kind(functools.partial(self.keep, name)))

    def keep(self, name, *given):
        self.got[name] = [self.seen(value) for value in given]
        if name == "wq_status_of":
            given[3].contents.kind = 2
        return None if name == "wq_host_free" else 0

    @staticmethod
    def seen(value):
        """A number as it is; of a struct its fields, and else the first item of what lies at a pointer."""
        if isinstance(value, int):
            return value
        value = value.contents
        fields = getattr(value, "_fields_", None)
        return [getattr(value, name) for name, *_ in fields] if fields else value.value


@contextmanager
def replaced(lib):
    """The module over another library."""
    before, wolqedir.lib = wolqedir.lib, lib
    try:
        yield lib
    finally:
        wolqedir.lib = before


def named(host, **numbers):
    return Instance(**{"host": host.serial, "place": 0, "number": 0, **numbers})


def as_is(value):
    return value


def unsigned(bits):
    return lambda value: value % 2**bits


def signed(value):
    """The signed reading of 64 bits."""
    return (value + 2**63) % 2**64 - 2**63


def of_host():
    """The numbers of a new host: of each the act, the export, where the export gets it, its range, and what that gets."""
    for at, name in ((1, "frames"), (2, "slots")):
        yield lambda _, value, name=name: Host(**{name: value}), "wq_host_new", lambda got, at=at: got[at], U32, as_is
    yield lambda _, value: Host(tax=(value, 4)), "wq_host_new", lambda got: got[3], U32, as_is
    yield lambda _, value: Host(tax=(3, value)), "wq_host_new", lambda got: got[4], U32, as_is


def of_admission():
    for at, name in enumerate(("shares", "min", "max", "fuel")):
        yield lambda host, value, name=name: host.admit(0, **{name: value}), "wq_admit", lambda got, at=at: got[2][at], U64, as_is
    yield lambda host, value: host.unload(value), "wq_unload", lambda got: got[1], U64, as_is
    yield lambda host, value: host.exports(value), "wq_export_count", lambda got: got[1], U64, as_is
    yield lambda host, value: host.admit(value), "wq_admit", lambda got: got[1], U64, as_is
    yield lambda host, value: host.admit(0, salt=value), "wq_admit", lambda got: got[2][4], I64, unsigned(64)
    yield lambda host, value: host.admit(0, base=value), "wq_admit", lambda got: got[2][5], I32, unsigned(32)
    yield lambda host, value: host.admit(0, inputs=[value]), "wq_admit", lambda got: got[3], I64, unsigned(64)


def of_calls():
    it = named
    for at, name in enumerate(("shares", "min", "max")):
        yield lambda host, value, name=name: host.fork(it(host), **{name: value}), "wq_fork", lambda got, at=at: got[2][at], U64, as_is
    yield lambda host, value: host.invoke(it(host), "f", [value], fuel=1), "wq_invoke", lambda got: got[4], I64, signed
    yield lambda host, value: host.invoke(it(host), "f", fuel=value), "wq_invoke", lambda got: got[6], U64, as_is
    yield lambda host, value: host.invoke_at(it(host), 0, [value], fuel=1), "wq_invoke_at", lambda got: got[3], I64, signed
    yield lambda host, value: host.invoke_at(it(host), value, fuel=1), "wq_invoke_at", lambda got: got[2], U64, as_is
    yield lambda host, value: host.invoke_at(it(host), 0, fuel=value), "wq_invoke_at", lambda got: got[5], U64, as_is
    yield lambda host, value: host.status(it(host), value), "wq_status_of", lambda got: got[2], U32, as_is
    yield lambda host, value: host.ended(it(host), value), "wq_ended", lambda got: got[2], U64, as_is
    yield lambda host, value: host.output(it(host), value), "wq_output_of", lambda got: got[2], U64, as_is
    yield lambda host, value: host.read(it(host), value, 0), "wq_read", lambda got: got[2], U64, as_is
    yield lambda host, value: host.read(it(host), 0, value), "wq_read", lambda got: got[4], (0, 2**28), as_is
    yield lambda host, value: host.refuel(it(host), value), "wq_refuel", lambda got: got[2], U64, as_is
    yield lambda _, value: wolqedir.code_text(value), "wq_code_text", lambda got: got[0], U32, as_is
    # A run is made by slices, of which the stand-in takes none.
    yield lambda host, value: host.run(value), "wq_run", lambda got: got[1], U64, lambda value: min(value, wolqedir.SLICE)


def of_instances():
    """The numbers of an instance, which a program may have made by itself."""
    acts = {
        "wq_fork": lambda host, it: host.fork(it),
        "wq_invoke": lambda host, it: host.invoke(it, "f", fuel=1),
        "wq_invoke_at": lambda host, it: host.invoke_at(it, 0, fuel=1),
        "wq_status_of": lambda host, it: host.status(it, 0),
        "wq_ended": lambda host, it: host.ended(it),
        "wq_instance_report_of": lambda host, it: host.report_of(it),
        "wq_output_of": lambda host, it: host.output(it),
        "wq_read": lambda host, it: host.read(it, 0, 1),
        "wq_refuel": lambda host, it: host.refuel(it, 1),
        "wq_retry": lambda host, it: host.retry(it),
        "wq_cancel": lambda host, it: host.cancel(it),
        "wq_release": lambda host, it: host.release(it),
        "wq_transcript_of": lambda host, it: host.transcript(it),
    }
    for export, act in acts.items():
        for at, name in enumerate(("place", "number")):
            tried = lambda host, value, act=act, name=name: act(host, named(host, **{name: value}))
            yield tried, export, lambda got, at=at: got[1][at], U64, as_is


def refused(act, lib, export, error):
    """The act raises this error, and the library isn't asked."""
    lib.got.pop(export, None)
    try:
        act()
    except error:
        assert export not in lib.got, (export, lib.got)
        return
    raise AssertionError(f"{export} was asked: {lib.got.get(export)}")


def edges():
    """How many values were tried."""
    count = 0
    with replaced(Standin()) as lib, Host() as host:
        for act, export, where, (least, most), wanted in [*of_host(), *of_admission(), *of_calls(), *of_instances()]:
            for value in (least, least + 1, 0, most - 1, most):
                act(host, value)
                assert where(lib.got[export]) == wanted(value), (export, value, lib.got[export])
            for value in (least - 1, most + 1, most + 8, least - 2**64, most + 2**64, -(10**30), 10**30):
                refused(lambda: act(host, value), lib, export, OverflowError)
            for value in (1.0, "1", None, b"1"):
                refused(lambda: act(host, value), lib, export, TypeError)
            count += 16
    return count


def slices():
    """A run asks for no slice beyond its size, and for as many charges in all as were given."""
    asked = []

    def run(_, charges, progress):
        asked.append(charges)
        progress.charges, progress.goes_on = charges, 1
        return 0

    with replaced(Standin()) as lib, Host() as host:
        lib.wq_run = run
        for charges, wanted in ((0, [0]), (1, [1]), (10**6, [10**6]), (10**6 + 1, [10**6, 1]), (3 * 10**6, [10**6] * 3)):
            asked.clear()
            assert host.run(charges) == (charges, True) and asked == wanted, (charges, asked)
    assert wolqedir.SLICE == 10**6 and MOST == 2**64 - 1
