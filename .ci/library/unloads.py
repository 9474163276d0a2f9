"""Modules that go: which can, that their numbers are never given again, and that their memory comes back."""
import random

from codes import named, pool
from refusals import blocks
from wolqedir import MOST, Host, Refused

# How often a module is loaded and let go, and how many modules a host has at once.
TIMES, MODULES = 100000, 1024
SEEDS, STEPS = 40, 200
NAMES = ("empty", "seven", "pages", "hosted", "wide")


def again():
    """A host that is full of modules loads one wherever one goes; and a module that comes and goes takes the memory that the first
    took, under a new number each time. How often that was."""
    with Host() as host:
        numbers = [host.load(pool("empty")) for _ in range(MODULES)]
        assert answered(lambda: host.load(pool("empty"))) == "M1"
        for at, number in enumerate(numbers):
            host.unload(number)
            assert host.load(pool("empty")) == MODULES + at
            assert answered(lambda: host.load(pool("empty"))) == "M1"
    with Host() as host:
        host.unload(host.load(pool("pages")))
        before, number = blocks(), 1
        for _ in range(TIMES):
            assert host.load(pool("pages")) == number and blocks() > before
            host.unload(number)
            assert blocks() == before, (number, blocks() - before)
            number += 1
    return TIMES


def answered(act):
    """What an act comes to, a refusal by its name."""
    try:
        return act()
    except Refused as refused:
        return named(refused.code)


class Coming:
    """A host to which modules and instances come, and from which they go, at random; and what is there."""

    def __init__(self, host, seed):
        self.host, self.random = host, random.Random(seed)
        self.modules, self.instances, self.loaded, self.gone = {}, {}, 0, 0

    def load(self):
        """A module comes, under the number behind that of the last one."""
        name = self.random.choice(NAMES)
        assert self.host.load(pool(name)) == self.loaded
        self.modules[self.loaded] = name
        self.loaded += 1

    def unload(self):
        """A module goes, if it is there and no instance is of it."""
        number = self.random.randrange(self.loaded + 2)
        used = number in self.instances.values()
        wanted = "A1" if number not in self.modules else "8" if used else None
        before = self.host.report()
        assert answered(lambda: self.host.unload(number)) == wanted and self.host.report() == before, (number, wanted)
        if wanted is None:
            del self.modules[number]
            self.gone += 1

    def admit(self):
        """An instance comes, if its module is there."""
        number = self.random.randrange(self.loaded + 2)
        answer = answered(lambda: self.host.admit(number, max=32, fuel=MOST, inputs=[3]))
        assert (answer == "A1") == (number not in self.modules), (number, answer)
        if answer != "A1":
            self.instances[answer] = number

    def fork(self):
        """An instance is copied: the copy is of its module."""
        if self.instances:
            instance = self.random.choice(list(self.instances))
            self.host.run(MOST)
            self.instances[self.host.fork(instance, max=32)] = self.instances[instance]

    def release(self):
        """An instance goes."""
        if self.instances:
            instance = self.random.choice(list(self.instances))
            self.host.release(instance)
            del self.instances[instance]

    def called(self):
        """Each instance has its module's functions, whatever else went."""
        kinds = {"empty": None, "seven": ("f", []), "pages": ("get", [0]), "hosted": ("salt", []), "wide": ("div_s", [42, 6])}
        values = {"seven": 7, "pages": 0, "hosted": 0, "wide": 7}
        for instance, number in self.instances.items():
            name = self.modules[number]
            if kinds[name] is not None:
                call = self.host.invoke(instance, *kinds[name], fuel=MOST)
                self.host.run(MOST)
                assert self.host.status(instance, call).value == values[name], (name, self.host.status(instance, call))
            else:
                assert answered(lambda: self.host.invoke(instance, "f", fuel=MOST)) == "H2"


def among():
    """How many modules went, while others came, were called, were copied and went."""
    count = 0
    for seed in range(SEEDS):
        with Host(frames=512, slots=65536) as host:
            coming = Coming(host, seed)
            for _ in range(STEPS):
                coming.random.choice([coming.load, coming.unload, coming.unload, coming.admit, coming.fork, coming.release])()
            coming.called()
            count += coming.gone
    return count
