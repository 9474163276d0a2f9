"""Copies of instances: what they have of their template and what each has alone, and that each has come to what its calls come to
alone."""
import random

from codes import pool
from wolqedir import MOST, Host

# Pages that the template has written, and its copies.
PAGES, COPIES = 12, 50
SEEDS = 40


def asked(host, instance, name, *args):
    """What a call comes to."""
    call = host.invoke(instance, name, args, fuel=MOST)
    host.run(MOST)
    return host.status(instance, call)


def used(host):
    """How many frames are in use, how many of these are shared, and by how many pages."""
    report = host.report()
    return report.used_frames, report.shared_frames, report.sharers


def warm():
    """Copies take no frame, are charged nothing, and have what the template has; what one writes, it alone sees, for one frame; and
    they keep all where the template goes. How many copies that were."""
    with Host(frames=1024, slots=65536) as host:
        template = host.admit(host.load(pool("pages")), min=16, max=32)
        asked(host, template, "fill", 0, PAGES, 7)
        assert used(host) == (PAGES, 0, 0)
        total = asked(host, template, "sum", 0, PAGES).value
        copies = [host.fork(template, shares=at + 1, max=32) for at in range(COPIES)]
        assert used(host) == (PAGES, PAGES, PAGES * (COPIES + 1))
        told = host.transcript(template)
        for at, (row, copy) in enumerate(zip(host.report().instances[1:], copies)):
            assert (row.instance, row.shares, row.min, row.max, row.charged) == (copy, at + 1, 2, 32, 0), row
            assert host.transcript(copy) == told
        for at, copy in enumerate(copies):
            asked(host, copy, "set", 1, at + 1)
            assert used(host)[0] == PAGES + at + 1
        asked(host, template, "set", 4096, 9)
        assert used(host)[0] == PAGES + COPIES + 1
        host.release(template)
        for at, copy in enumerate(copies):
            assert asked(host, copy, "get", 1).value == at + 1 and asked(host, copy, "get", 4096).value == 7
            asked(host, copy, "set", 1, 0)
            assert asked(host, copy, "sum", 0, PAGES).value == total
            assert host.release(copy) == b""
        assert used(host) == (0, 0, 0)
    return COPIES


class Beside:
    """A host whose instances are copied at random, and the calls of each."""

    def __init__(self, host, seed):
        self.host, self.random = host, random.Random(seed)
        self.modules = {name: host.load(pool(name)) for name in ("pages", "hosted")}
        self.calls = {host.admit(module, max=32, fuel=MOST): (name, []) for name, module in self.modules.items()}
        host.run(MOST)

    def call(self):
        """A call of one of them."""
        instance = self.random.choice(list(self.calls))
        name, calls = self.calls[instance]
        at, value = self.random.randrange(65536), self.random.randrange(256)
        kinds = {
            "pages": [("set", at, value), ("get", at), ("sum", 0, 16), ("fill", 0, 9, value), ("grow", 1), ("grow", 2)],
            "hosted": [("put", value), ("echo", 2), ("salt",)],
        }
        words = self.random.choice(kinds[name])
        calls.append((words, asked(self.host, instance, *words)))

    def fork(self):
        """A copy of one of them, if it has no page in swap."""
        instance = self.random.choice(list(self.calls))
        name, calls = self.calls[instance]
        row = next(row for row in self.host.report().instances if row.instance == instance)
        if row.swapped == 0 and len(self.calls) < 8:
            self.calls[self.host.fork(instance, max=32)] = name, list(calls)

    def end(self):
        """Each has come to what its calls come to in an instance that has the host alone. How many calls these have."""
        count = 0
        for instance, (name, calls) in self.calls.items():
            told = self.host.transcript(instance)
            with Host(frames=64, slots=256) as alone:
                other = alone.admit(alone.load(pool(name)), max=32, fuel=MOST)
                alone.run(MOST)
                for words, status in calls:
                    assert asked(alone, other, *words) == status, (words, status)
                assert alone.transcript(other) == told and alone.release(other) == self.host.release(instance)
            count += len(calls)
        return count


def alone():
    """How many calls copies and those that they are of have made, among few frames."""
    count = 0
    for seed in range(SEEDS):
        with Host(frames=20, slots=1024) as host:
            beside = Beside(host, seed)
            for _ in range(120):
                beside.random.choice([beside.call, beside.call, beside.call, beside.fork, host.scan])()
            count += beside.end()
    return count
