"""Each request for memory that a call makes, refused in turn: the call answers a code of want of memory, the host is as it was,
what could be written is as it was, and the call then goes as if nothing had been. Where a list of a module's instructions isn't
reserved, it grows, and where it isn't cut, it stays: then nothing differs. A host that is let go, or isn't made, has given back all
memory."""
import ctypes
import itertools

from codes import named, pool
from driven import MOST, wolqedir
from wolqedir import Host, Refused

# By which codes a call may say that room was refused.
WANTS = {
    "new": {"2"},
    "load": {"D13", "V11", "L3", "M2"},
    "admit": {"2", "A9"},
    "fork": {"A9"},
    "invoke": {"2", "H7"},
    "invoke_at": {"2", "H7"},
    "report": {"2", "H7"},
    "transcript": {"2", "H7"},
}


def blocks():
    """How many blocks of memory hosts have taken and not given back."""
    return wolqedir.lib.blocks_out()


def refusing(act, n):
    """What an act answers with the n-th of its requests refused, by its code; and whether one was."""
    wolqedir.lib.refuse_at(n)
    try:
        answer, code = act(), "0"
    except Refused as refused:
        answer, code = None, named(refused.code)
    finally:
        count = wolqedir.lib.refused_count()
        wolqedir.lib.refuse_at(0)
    return answer, code, count


class Watched:
    """A host, and all that it tells."""

    def __init__(self):
        self.host = Host(frames=64, slots=256)
        self.instances, self.kinds, self.count, self.spared = [], set(), 0, 0

    def told(self):
        calls = []
        for instance in self.instances:
            for at in itertools.count():
                try:
                    calls.append(self.host.status(instance, at))
                except Refused:
                    break
            calls.append(self.host.transcript(instance))
        return self.host.report(), calls

    def tried(self, name, act):
        """Refuses each request of an act in turn, and then none. Its answer."""
        before = self.told()
        for n in itertools.count(1):
            answer, code, refused = refusing(act, n)
            if refused == 0:
                assert code == "0", (name, n, code)
                return answer
            self.count += 1
            self.kinds.add(code)
            self.spared += code == "0"
            assert code in WANTS.get(name, ()) or (name, code) == ("load", "0"), (name, n, code)
            assert self.told() == before, (name, n)


def of_new():
    """Refuses each request of a new host in turn. How many there are, and the codes."""
    kinds, before = set(), blocks()
    for n in itertools.count(1):
        host, code, refused = refusing(lambda: Host(frames=64, slots=256), n)
        if refused == 0:
            assert code == "0", code
            host.close()
        assert blocks() == before, (n, blocks() - before)
        if refused == 0:
            return n - 1, kinds
        assert code in WANTS["new"], (n, code)
        kinds.add(code)


def all_refused():
    """How many requests were refused, in how many of these nothing differed, and by which codes calls said so."""
    wolqedir.lib.refuse_at.argtypes, wolqedir.lib.refuse_at.restype = [ctypes.c_size_t], None
    wolqedir.lib.refused_count.argtypes, wolqedir.lib.refused_count.restype = [], ctypes.c_size_t
    count, kinds = of_new()
    watched = Watched()
    host = watched.host
    numbers = [watched.tried("load", lambda: host.load(pool(name))) for name in ("hosted", "wide", "pages", "started", "placed")]
    for number in numbers[:4]:
        instance = watched.tried("admit", lambda: host.admit(number, max=32, fuel=1000, inputs=[1, 2, 3]))
        watched.instances.append(instance)
    hosted, wide, pages, _ = watched.instances
    watched.tried("invoke", lambda: host.invoke(hosted, "put", [7], fuel=MOST))
    watched.tried("invoke", lambda: host.invoke(wide, "mix", [1, 2, 3], fuel=2))
    watched.tried("invoke", lambda: host.invoke(pages, "set", [5, 6], fuel=MOST))
    watched.tried("run", lambda: host.run(3))
    watched.tried("run", lambda: host.run(MOST))
    watched.tried("refuel", lambda: host.refuel(wide, 1000))
    watched.tried("run", lambda: host.run(MOST))
    watched.instances.append(watched.tried("fork", lambda: host.fork(pages, max=32)))
    watched.tried("scan", host.scan)
    watched.tried("epoch", host.epoch)
    watched.tried("report", host.report)
    watched.tried("transcript", lambda: host.transcript(wide))
    names = [export.name for export in watched.tried("exports", lambda: host.exports(numbers[1]))]
    watched.tried("invoke_at", lambda: host.invoke_at(wide, names.index("mix"), [1, 2, 3], fuel=MOST))
    watched.tried("run", lambda: host.run(MOST))
    watched.tried("ended", lambda: host.ended(wide))
    watched.tried("report_of", lambda: host.report_of(wide))
    watched.tried("counts", host.counts)
    watched.tried("output", lambda: host.output(hosted))
    watched.tried("read", lambda: host.read(pages, 0, 4097))
    watched.instances.remove(hosted)
    assert watched.tried("release", lambda: host.release(hosted)) == bytes([7, 0, 0, 0, 0, 0, 0, 0])
    watched.tried("unload", lambda: host.unload(numbers[0]))
    host.close()
    return count + watched.count, watched.spared, kinds | watched.kinds
