"""What is shown of instances while they live, and of modules: outputs, ended calls, bytes of memory and exports, beside what their
release, their statuses, the second model and the second reading of the module say."""
import random

from codes import named, pool
from driven import Driven, Module, Session, generate
from wasm import I32
from wolqedir import MOST, Host, Refused

SEEDS, STEPS = 40, 100
# Pages of 4096 bytes that are written, in so many frames.
PAGES, FRAMES = 60, 8
NAMES = ("empty", "seven", "pages", "hosted", "wide", "started", "placed")


def answered(act):
    """What an act comes to, a refusal by its name."""
    try:
        return act()
    except Refused as refused:
        return named(refused.code)


def exported(data):
    """The functions that a module exports, by the second reading."""
    module = Module(data)
    for name, kind, index in module.exports:
        if kind == 0:
            params, results = module.type_of(index)
            kinds = ["i32" if of == I32 else "i64" for of in [*params, *results]]
            yield name, kinds[: len(params)], kinds[len(params)] if results else None


def exports():
    """How many functions modules export, each told as the second reading has it; and that a call by place is the call by name."""
    count = 0
    with Host(frames=512, slots=65536) as host:
        for name in NAMES:
            number, data = host.load(pool(name)), pool(name)
            told = host.exports(number)
            assert [(export.name, export.params, export.result) for export in told] == list(exported(data)), (name, told)
            one, other = (host.admit(number, max=32, fuel=MOST, inputs=[3]) for _ in range(2))
            host.run(MOST)
            for at, export in enumerate(told):
                given = [at + 1] * len(export.params)
                first = answered(lambda: host.invoke(one, export.name, given, fuel=1000))
                assert answered(lambda: host.invoke_at(other, at, given, fuel=1000)) == first, (name, export)
                count += 1
            host.run(MOST)
            assert host.transcript(one) == host.transcript(other), name
            assert answered(lambda: host.invoke_at(one, len(told), fuel=1)) == "H2"
            assert answered(lambda: host.exports(number + 1)) == "6"
            host.release(one)
            assert answered(lambda: host.invoke_at(one, 0, fuel=1)) == "H1"
    return count


def shown(host, instance, seen):
    """An instance's output is what was seen of it and more, from each place on; its ended calls have their statuses."""
    output = host.output(instance)
    assert output[: len(seen)] == seen, (output, seen)
    for since in (0, len(seen), len(output), len(output) + 1, MOST):
        assert host.output(instance, since) == output[since:], since
    calls = host.transcript(instance)
    ended = [host.status(instance, at) for at, call in enumerate(calls) if call.kind != "open"]
    for since in (0, 1, len(ended), MOST):
        assert host.ended(instance, since) == ended[since:], since
    return output


def outputs():
    """How many bytes instances had put out, each of which was shown before it went, of itself and of no other."""
    count = 0
    for seed in range(SEEDS):
        choose = random.Random(seed)
        with Host(frames=512, slots=65536) as host:
            number, seen = host.load(pool("hosted")), {}
            for _ in range(STEPS):
                kind = choose.choice(("admit", "put", "put", "run", "release"))
                instance = choose.choice(list(seen)) if seen else None
                if kind == "admit" and len(seen) < 8:
                    seen[host.admit(number, max=32, fuel=MOST)] = b""
                elif kind == "put" and instance:
                    host.invoke(instance, "put", [choose.randrange(2**64)], fuel=choose.randrange(20))
                elif kind == "run":
                    host.run(choose.randrange(200))
                elif kind == "release" and instance:
                    output = shown(host, instance, seen.pop(instance))
                    assert host.release(instance) == output
                    assert answered(lambda: host.output(instance)) == "H1" and answered(lambda: host.ended(instance)) == "H1"
                    count += len(output)
                for instance in seen:
                    seen[instance] = shown(host, instance, seen[instance])
    return count


def same(host, instance, held):
    """What is seen of an instance is what the second model has of it. How many bytes of memory that are."""
    guest = held.guest
    assert host.read(instance, 0, len(guest.memory)) == bytes(guest.memory)
    assert answered(lambda: host.read(instance, len(guest.memory), 1)) == "9"
    assert host.output(instance) == bytes(guest.output)
    assert len(host.ended(instance)) == held.had - len(held.calls)
    assert host.report_of(instance) in host.report().instances
    return len(guest.memory)


def counted(model):
    """What the second model has counted: charges, and calls by their ends; but for starts that had nothing to do."""
    calls = [held.start for held in model.held if not held.start.is_hidden] + model.calls
    ends = [(call.ending or "open").split()[0] for call in calls]
    return sum(call.charges for call in calls), *(ends.count(end) for end in ("done", "trap", "cancelled", "dead"))


def beside():
    """Random scripts go through the library and the second model, line by line: behind each, all instances are seen alike, and as
    many charges and ended calls are counted. How many bytes of memory were read."""
    settings, count = generate.random_settings(SEEDS), 0
    for seed in range(1, SEEDS + 1):
        script, chosen = generate.Script(seed, settings).make(), random.Random(seed)
        model = Session(script.settings["frames"], script.settings["slots"], generate.FILES, generate.VERDICTS)
        driven = Driven(script.settings, generate.FILES, lambda: chosen.choice([1, 7, 100, 5000, MOST]))
        for line, _ in script.lines:
            model.line(line.encode())
            driven.line(line.encode())
            assert len(model.held) == len(driven.held), (seed, line)
            assert driven.host.counts()[1:6] == counted(model), (seed, line, driven.host.counts(), counted(model))
            for held, kept in zip(model.held, driven.held):
                if held.is_gone:
                    assert answered(lambda: driven.host.read(kept.instance, 0, 0)) == "H1", (seed, line)
                else:
                    count += same(driven.host, kept.instance, held)
        driven.host.close()
    return count


def swapped():
    """Bytes of pages in swap are read where they are: no frame is taken, and no page moves. How many pages were in swap."""
    with Host(frames=FRAMES, slots=65536) as host:
        a = host.admit(host.load(pool("pages")), max=160)
        host.invoke(a, "grow", [9], fuel=MOST)
        host.invoke(a, "fill", [0, PAGES, 1], fuel=MOST)
        host.run(MOST)
        wanted = bytearray(655360)
        for at in range(PAGES):
            wanted[4096 * at : 4096 * at + 4] = (1).to_bytes(4, "little")
        before = host.report()
        assert host.read(a, 0, len(wanted)) == wanted
        for address, length in ((4095, 2), (4096, 4), (8191, 8194), (4096 * PAGES - 1, 2), (1, 655359)):
            assert host.read(a, address, length) == wanted[address : address + length], (address, length)
        assert host.report() == before and before.used_frames <= FRAMES, before
        swapped, counts = before.instances[0].swapped, host.counts()
        assert counts.evictions - counts.fetches == swapped and counts.faults == 0, counts
        return swapped


def merged():
    """Pages that come to share a frame, and that are written then, are counted. How many."""
    with Host(frames=512, slots=65536) as host:
        number = host.load(pool("pages"))
        both = [host.admit(number, max=160) for _ in range(2)]
        for instance in both:
            host.invoke(instance, "grow", [9], fuel=MOST)
            host.invoke(instance, "fill", [0, PAGES, 1], fuel=MOST)
        ran, before = host.run(MOST), host.report()
        assert (before.used_frames, host.counts().merges) == (2 * PAGES, 0), (before, host.counts())
        assert host.counts().charges == ran.charges and host.counts().returned == 4, host.counts()
        host.scan()
        counts, after = host.counts(), host.report()
        assert counts.merges == before.used_frames - after.used_frames > 0 and counts.offers >= 2 * PAGES, (counts, after)
        host.invoke(both[0], "fill", [0, 7, 2], fuel=MOST)
        host.run(MOST)
        assert host.counts().breaks == 7, host.counts()
        return counts.merges
