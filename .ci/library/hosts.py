"""Several hosts of one process, in Python: an instance of one is refused by the others; instances and refusals compare, hash and
pickle; and a module comes by whatever has a buffer."""
import copy
import pickle

from codes import pool
from wolqedir import MOST, Host, Instance, Refused


def raised(act):
    """What an act raises."""
    try:
        return act()
    except Exception as error:
        return error


def acts(host, instance):
    """What can be asked of an instance."""
    yield lambda: host.invoke(instance, "f", fuel=MOST)
    yield lambda: host.invoke_at(instance, 0, fuel=MOST)
    yield lambda: host.fork(instance)
    yield lambda: host.status(instance, 0)
    yield lambda: host.ended(instance)
    yield lambda: host.report_of(instance)
    yield lambda: host.output(instance)
    yield lambda: host.read(instance, 0, 0)
    yield lambda: host.refuel(instance, 1)
    yield lambda: host.retry(instance)
    yield lambda: host.cancel(instance)
    yield lambda: host.release(instance)
    yield lambda: host.transcript(instance)


def apart():
    """An instance of another host raises ValueError, what is none TypeError, and nothing has happened. How many acts that were."""
    count = 0
    with Host() as one, Host() as other:
        mine, theirs = (host.admit(host.load(pool("seven")), max=16) for host in (one, other))
        assert (mine.place, mine.number) == (theirs.place, theirs.number) == (0, 0) and mine != theirs
        before = other.report(), other.transcript(theirs), other.status(theirs, 0)
        for wrong, kind in ((mine, ValueError), ((0, 0), TypeError), (0, TypeError), (None, TypeError)):
            for act in acts(other, wrong):
                error = raised(act)
                assert type(error) is kind, (wrong, error)
                count += 1
        assert before == (other.report(), other.transcript(theirs), other.status(theirs, 0))
        call = other.invoke(theirs, "f", fuel=MOST)
        other.run(MOST)
        assert other.status(theirs, call).value == 7
        other.release(theirs)
        assert raised(lambda: other.release(theirs)).fault == "H1"
    return count


def serials():
    """No host has the serial of one that is gone."""
    seen = set()
    for _ in range(64):
        with Host(frames=8, slots=32) as host:
            instance = host.admit(host.load(pool("seven")), max=16)
            assert instance not in seen
            seen.add(instance)


def values():
    """Instances are equal by host, place and number, and a refusal is what it was behind a pickle."""
    one = Instance(1, 2, 3)
    assert one == Instance(1, 2, 3) and hash(one) == hash(Instance(1, 2, 3))
    assert all(one != other for other in (Instance(2, 2, 3), Instance(1, 3, 3), Instance(1, 2, 4), (1, 2, 3)))
    for moved in (pickle.loads(pickle.dumps(one)), copy.deepcopy(one)):
        assert moved == one
    for code, fault in ((0x503, "A3"), (6, None), (0x60A0, None)):
        refused = Refused(code)
        for moved in (pickle.loads(pickle.dumps(refused)), copy.copy(refused)):
            assert (type(moved), moved.code, moved.fault, str(moved)) == (Refused, code, fault, str(refused))
    assert str(Refused(0x503)) == "A3: MIN is below 2, MAX below MIN, or MAX above 65536"


def buffers():
    """A module is the same bytes by each kind of buffer; a number or a text is none."""
    module = pool("empty")
    assert len(module) == 8
    words = memoryview(module).cast("I")
    with Host() as host:
        kinds = [module, bytearray(module), memoryview(module), words, memoryview(module).cast("Q")]
        assert [host.load(data) for data in kinds] == [0, 1, 2, 3, 4]
        for wrong in (8, "module", None, [0, 97]):
            assert type(raised(lambda: host.load(wrong))) is TypeError, wrong
        assert raised(lambda: host.load(memoryview(bytes(words)[:4]))).fault == "D3"
    return len(kinds)
