"""`python3 rounds.py SEED COUNT` prints a table of so many scripts made for rounds, those of the seeds from SEED on, each with the
replies that the model gives: several instances of one module compute for long, each call as many turns as it takes before series of
turns are run at once and some rounds more, on few pages, some of them merged; calls end, trap, grow, and run out of fuel in the
middle; pages are offered, and calls cancelled and instances released between. The program runs each by 1, 2, 4 and 8 threads."""
import multiprocessing, random, sys

import generate
from model import Session
from modules import with_memory

PATH = "rounds"


def long_loops():
    """Loops: without memory, over the memory's first page of 65536 bytes, over its end, and with growth."""
    build = with_memory(1, 3)
    down = " get 0 i32.const 1 i32.sub set 0 get 0 br_if 0 end "
    build.function("count", "i>i", "loop get 1 i32.const 1103515245 i32.mul i32.const 12345 i32.add set 1" + down + "get 1", "i")
    at = "loop get 3 i32.const 65528 i32.and set 3 "
    sums = "get 4 get 3 i64.load 0 i64.add set 4 get 3 get 1 i32.add set 3"
    build.function("walk", "iii>l", at + "get 3 get 2 i32.store 0 " + sums + down + "get 4", "il")
    build.function("look", "iii>l", at + sums + down + "get 4", "il")
    build.function("far", "ii>", "loop get 1 get 0 i32.store 0 get 1 i32.const 16 i32.add set 1 br 0 end")
    build.function("grow", "ii>i", "loop block get 0 get 1 i32.rem_u br_if 0 i32.const 1 grow drop end" + down + "size")
    build.function("set", "il>", "get 0 get 1 i64.store 0").function("get", "i>l", "get 0 i64.load 0")
    return build.spelled()


MODULE = long_loops()
FILES, VERDICTS = {PATH: MODULE}, {MODULE: "ok"}
# About how many charges a step of each loop takes.
CHARGES = {"count": 9, "walk": 19, "look": 16, "far": 6, "grow": 9}


def settings():
    """Documents of settings: few frames and many, constant hashes and others, short turns and long ones."""
    out = {}
    for frames, slots in ((24, 150), (48, 300), (1024, 4096)):
        for kind in ("constant", "fnv64"):
            for quantum in (400, 1000, 5000):
                out[f"r{len(out)}"] = {"frames": frames, "slots": slots, "quantum": quantum, "hash": kind}
    return out


class Rounds(generate.Script):
    """A script for rounds in the making, beside the model."""

    def __init__(self, seed, documents):
        super().__init__(seed, documents)
        self.session = Session(self.settings["frames"], self.settings["slots"], FILES, VERDICTS)
        self.names = "abcdefgh"[: self.random.randint(3, min(8, self.settings["frames"] // 4, self.settings["slots"] // 48))]

    def invoke(self, name, charges):
        kind = self.any("count", "count", "walk", "walk", "walk", "look", "look", "far", "grow")
        steps = max(1, charges // CHARGES[kind])
        arguments = {
            "count": [steps],
            "walk": [steps, self.any(8, 64, 4096, 4104, 12288), self.any(0, 1, 1, 7)],
            "look": [steps, self.any(8, 4096, 4104), 0],
            "far": [self.any(1, 2, 7), max(0, 65536 - 16 * steps)],
            "grow": [steps, self.any(steps, 5000, 1 + steps // 3)],
        }[kind]
        fuel = self.any(charges * 3, charges * 3, charges * 3, charges // 2, charges // 3)
        self.say(f"invoke {name} {kind} {fuel} " + " ".join(map(str, arguments)))

    def between(self, name):
        what = self.any("scan", "scan", "set", "get", "refuel", "refuel", "cancel", "release", "nothing")
        if what == "scan":
            self.say("scan")
        elif what == "set":
            self.say(f"invoke {name} set 100 {self.any(0, 8, 4096, 65528)} {self.any(0, 1, 7)}")
        elif what == "get":
            self.say(f"invoke {name} get 100 {self.any(0, 8, 4096, 8192, 65528)}")
        elif what == "refuel":
            self.say(f"refuel {name} {self.any(10, 20000, 60000, 1000000)}")
        elif what in ("cancel", "release"):
            self.say(f"{what} {name}")

    def make(self):
        self.say(f"load m {PATH}")
        for name in self.names:
            self.say(f"admit {name} m {self.any(100, 100, 1, 1000)} {self.any(2, 2, 3)} 48 0 0 0")
        if self.chance(0.5):
            for name in self.names:
                self.say(f"invoke {name} walk 100000 16 4096 {self.any(1, 1, 1, 2)}")
            self.say("drain")
            self.say("scan")
        # Behind some 250000 to 500000 charges series are long enough for the first round.
        each = self.random.randint(900000, 1500000) // len(self.names)
        for name in self.names:
            self.invoke(name, self.any(each, each, each, each * 3 // 2, each // 3, 50))
            if self.chance(0.2):
                self.invoke(name, self.any(50, 3000, each // 4))
        self.say("drain")
        for _ in range(self.random.randint(1, 6)):
            self.between(self.random.choice(self.names))
        self.say("drain")
        for name in self.names:
            if self.chance(0.4):
                self.say(f"invoke {name} look 3000 100 4096 0")
        self.say("drain")
        for name in self.names:
            if self.chance(0.5):
                self.say(f"release {name}")
        return self


def lines_of(seed):
    name, *rest = generate.table_of(Rounds(seed, settings()).make(), f"rounds{seed}")
    return [name.replace(" unended", "") + " rounds", *rest]


def table(first, count):
    """The file, the settings, and so many scripts, as the lines of a table."""
    out = [f"file {PATH} {MODULE.hex()}", *generate.table_of_settings(settings())]
    with multiprocessing.Pool() as pool:
        for lines in pool.imap(lines_of, range(first, first + count), 1):
            out += lines
    return out


if __name__ == "__main__":
    print("\n".join(table(int(sys.argv[1]), int(sys.argv[2]))))
