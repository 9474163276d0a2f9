"""When runs begin epochs, in which no page counts as touched: as the header says of wq_epoch. A page of an instance that has no call
tells, beside a call that never ends."""
from codes import pool
from driven import wolqedir
from wolqedir import MOST, Host

MILLION = 1000000


class Watched:
    """A host with an instance that has touched one page, and one that goes on."""

    def __init__(self, host):
        self.host = host
        pages, spin = host.load(pool("pages")), host.load(pool("spin"))
        self.idle, self.busy = host.admit(pages, max=32), host.admit(spin, max=16)
        self.touch()

    def touch(self):
        """Stores to a page, in a run that takes 2000 charges at most, in which each has a turn."""
        call = self.host.invoke(self.idle, "set", [0, 7], fuel=MOST)
        self.run(2000)
        assert self.host.status(self.idle, call).kind == "returned" and self.is_active()

    def run(self, charges):
        """One run of the library: how many charges it took."""
        progress = wolqedir.Progress()
        wolqedir.must(wolqedir.lib.wq_run(self.host.handle, charges, progress))
        return progress.charges

    def is_active(self):
        return self.host.report().instances[0].active == 1


def begun():
    """Epochs begin where the header says, and nowhere else. At how many runs was looked."""
    with Host() as host:
        watched = Watched(host)
        taken = sum(host.status(watched.idle, call).charges for call in (0, 1))
        host.invoke(watched.busy, "f", fuel=MOST)
        # The run in which the page was touched was the first one, and began an epoch: so none begins up to a million charges, and
        # none in the run that goes beyond.
        for charges in (10, MILLION - taken - 11, 3 * MILLION):
            assert watched.run(charges) == charges and watched.is_active(), charges
        assert watched.run(1) == 1 and not watched.is_active()
        watched.touch()
        host.epoch()
        assert not watched.is_active()
        watched.touch()
        assert watched.run(2 * MILLION) == 2 * MILLION and watched.is_active()
        host.cancel(watched.busy)
        # No call can go on.
        assert watched.run(MOST) == 0 and watched.is_active()
        host.invoke(watched.busy, "f", fuel=MOST)
        # By slices one begins where it is time.
        host.run(1)
        assert not watched.is_active()
    return 9
