"""The turns of runs: each instance that can go on has one of 1000 charges at most before the next one has."""
from codes import pool
from wolqedir import MOST, Host

QUANTUM = 1000
RUNS = (3000, 1, 1500, 10, 999, 2001, 4, 7000, 2)


def alike():
    """Three calls that never end take turns one after the other, and all charges that are given. How many runs that were."""
    with Host() as host:
        spin = host.load(pool("spin"))
        callers = [host.admit(spin, max=16) for _ in range(3)]
        calls = [(caller, host.invoke(caller, "f", fuel=MOST)) for caller in callers]
        line, wanted = [0, 1, 2], [0, 0, 0]
        for charges in RUNS:
            left = charges
            while left > 0:
                first, turn = line.pop(0), min(left, QUANTUM)
                wanted[first] += turn
                left -= turn
                line.append(first)
            ran = host.run(charges)
            taken = [host.status(*call).charges for call in calls]
            assert (ran.charges, ran.goes_on, taken) == (charges, True, wanted), (charges, ran, taken, wanted)
    return len(RUNS)
