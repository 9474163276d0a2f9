"""Threads and signals on one host, in Python, in a process of its own, since what goes wrong here doesn't end: `threads.py`."""
import os
import signal
import threading
import time

from codes import pool
from driven import wolqedir
from hosts import raised
from wolqedir import MOST, Host, Refused


class Thread(threading.Thread):
    """A thread whose failure is told by whoever waits for it."""

    def __init__(self, act):
        super().__init__(target=self.work, args=(act,), daemon=True)
        self.error = None
        self.start()

    def work(self, act):
        try:
            act()
        except BaseException as error:
            self.error = error

    def done(self):
        self.join()
        if self.error:
            raise self.error


def spinner(host):
    """An instance, and a call of it that never ends by itself."""
    instance = host.admit(host.load(pool("spin")), max=16)
    return instance, host.invoke(instance, "f", fuel=MOST)


def tenant(host, module, times):
    """Brings instances, calls them and lets them go: each call gives 7."""
    for _ in range(times):
        instance = host.admit(module, max=16)
        call = host.invoke(instance, "f", fuel=1000)
        while host.status(instance, call).kind != "returned":
            host.run(2000)
        assert host.status(instance, call).value == 7
        assert instance in [row.instance for row in host.report().instances]
        assert host.transcript(instance)[call].result == 7
        assert host.release(instance) == b""


def together():
    """Four threads with tenants of one host, beside one that runs a call without an end, get what they get alone."""
    with Host() as host:
        instance, call = spinner(host)
        module = host.load(pool("seven"))
        runner = Thread(lambda: host.run(MOST))
        for thread in [Thread(lambda: tenant(host, module, 20)) for _ in range(4)]:
            thread.done()
        host.cancel(instance)
        runner.done()
        assert host.status(instance, call).kind == "cancelled"
        assert [row.instance for row in host.report().instances] == [instance]


def outputs():
    """Each of four threads gets what its own instance had put out."""

    def emitter(word):
        for _ in range(50):
            instance = host.admit(module, max=16)
            call = host.invoke(instance, "put", [word], fuel=1000)
            while host.status(instance, call).kind != "returned":
                host.run(1000)
            assert host.release(instance) == word.to_bytes(8, "little")

    with Host() as host:
        module = host.load(pool("hosted"))
        for thread in [Thread(lambda word=word: emitter(word)) for word in range(4)]:
            thread.done()


def interrupted():
    """SIGINT ends a run that has no other end, between slices; the host goes on."""
    with Host() as host:
        instance, call = spinner(host)
        timer = threading.Timer(0.3, os.kill, (os.getpid(), signal.SIGINT))
        timer.start()
        began = time.monotonic()
        assert type(raised_by_signal(lambda: host.run(MOST))) is KeyboardInterrupt
        assert time.monotonic() - began < 20
        before = host.status(instance, call)
        assert before.kind == "going" and before.charges > 0, before
        assert host.run(5) == (5, True)
        assert host.status(instance, call).charges == before.charges + 5


def raised_by_signal(act):
    try:
        return act()
    except KeyboardInterrupt as error:
        return error


def handled():
    """A signal's handler asks the host that runs, and ends the call."""
    with Host() as host:
        instance, call = spinner(host)
        signal.signal(signal.SIGALRM, lambda *_: host.cancel(instance))
        signal.setitimer(signal.ITIMER_REAL, 0.3)
        assert not host.run(MOST).goes_on
        assert host.status(instance, call).kind == "cancelled"


def releasing():
    """A release within a release is refused, and the first one gets its bytes."""
    taken, errors = wolqedir.lib.wq_taken, []

    def asked(*given):
        errors.append(raised(lambda: host.release(other)))
        return taken(*given)

    class Library:
        wq_taken = staticmethod(asked)

        def __getattr__(self, name):
            return getattr(real, name)

    with Host() as host:
        module = host.load(pool("hosted"))
        one, other = host.admit(module, max=16), host.admit(module, max=16)
        host.invoke(one, "put", [7], fuel=100)
        host.run(1000)
        real, wolqedir.lib = wolqedir.lib, Library()
        try:
            output = host.release(one)
        finally:
            wolqedir.lib = real
        assert output == bytes([7, 0, 0, 0, 0, 0, 0, 0]) and errors and {type(error) for error in errors} == {RuntimeError}
        assert host.release(other) == b""


def closed():
    """A host that is let go answers code 1, also where another thread still asks."""
    host = Host()
    instance, _ = spinner(host)
    runner = Thread(lambda: host.run(MOST))
    time.sleep(0.1)
    host.close()
    host.close()
    runner.join()
    assert isinstance(runner.error, Refused) and runner.error.code == 1, runner.error
    assert raised(lambda: host.status(instance, 0)).code == 1


if __name__ == "__main__":
    # A shell without job control has what it starts in the background ignore SIGINT.
    signal.signal(signal.SIGINT, signal.default_int_handler)
    for act in (together, outputs, interrupted, handled, releasing, closed):
        act()
        print(act.__name__, flush=True)
