"""`python3 generate.py SEED COUNT` prints a table of so many random scripts, those of the seeds from SEED on, each with the
replies that the model gives. The files and the settings that they name are those of `make.py`."""
import random, sys

from model import Session
from modules import BUILT, POOL

FILES = {path: contents for path, (contents, _) in POOL.items()}
FILES["too/great"] = None
VERDICTS = {contents: verdict for contents, verdict in POOL.values()}
WRONG = [path for path, (_, verdict) in POOL.items() if verdict != "ok"]
GREATEST = 18446744073709551615
# What stands for the arguments of exports: a an address, n a count, v an i32, w an i64, s a small number of pages, d a depth,
# i a place, f a number for Fibonacci's function, l a length, m a dividend, z a divisor.
ARGUMENTS = {
    "spin": {"f": "", "g": "v"},
    "pages": {"set": "av", "get": "a", "word": "aw", "read": "a", "fill": "anv", "sum": "an", "grow": "s", "size": "", "copy": "aan"},
    "started": {"get": "a", "read": "a", "sum": "", "grow": "s"},
    "trapping": {"f": ""},
    "waiting": {"f": ""},
    "placed": {"seven": "", "base": "", "neg": "v", "pick": "i", "turn": "iv", "load": "a", "drop": "v"},
    "listed": {"one": "", "two": "", "pick": "i"},
    "hosted": {"in": "i", "put": "w", "emit": "al", "salt": "", "echo": "n", "set": "av"},
    "deep": {"f": "", "load": "", "down": "d", "even": "d", "odd": "d", "fib": "f"},
    "wide": {
        **{name: "ww" for name in ("add", "mul", "rotl", "shr_s", "less")},
        **{name: "mz" for name in ("div_s", "rem_s", "div_u")},
        **{name + "32": "vv" for name in ("add", "mul", "rotl", "shr_s")},
        **{name + "32": "vz" for name in ("div_s", "rem_s", "div_u")},
        "id": "w", "id32": "v", "mix": "vwv", "low": "w", "none": "", "no": "v", "pick": "wwv",
    },
    "kept": {"add": "v", "swap": "w", "count": "n", "a.b-c/1": "", "-1": ""},
    "filled": {"get": "a", "word": "aw", "read": "a", "grow": "s", "drop": "av"},
    "blank": {"f": "", "b": "a"},
    "beyond": {"f": ""},
    "seven": {"f": ""},
    "empty": {},
}
PAGES = {"fill": 8, "set": 6, "word": 5, "sum": 6, "get": 2, "read": 3, "copy": 2, "grow": 2, "size": 1}
ENDLESS = {("spin", "f"), ("kept", "count")}
HEAVY = ["pages"] * 5 + ["started", "filled", "hosted", "placed"]
LIGHT = [*BUILT, "seven", "pages", "hosted", "hosted", "kept", "started", "wide", "wide", "deep", "listed"]
JUNK = [
    "drain now", "Drain", " drain", "drain ", "scan  ", "\tdrain", "report 1", "invoke", "invoke a", "invoke a f", "invoke a f x",
    "invoke a f 1 2 ", "invoke a  f 1", "invoke A f 1", "invoke a f --1", "invoke a f 1 +2", "invoke a f 111111111111111111111",
    "invoke a f -1", "invoke a f 18446744073709551616", "invoke a f 1 0x10", "refuel a", "refuel a -1", "refuel a 1 1", "refuel a x",
    "cancel", "cancel a b", "retry", "retry a-b", "release", "release a 1", "load m", "load m seven x", "load M seven",
    "load abcdefghijklmnopqrstuvwxyz0123456 seven", "module m", "module m 0", "module m 0g", "module m 00 00", "module  m 00",
    "admit a m 100 2 16 0 0", "admit a m 100 2 16 0 0 0 1.5", "admit a m -1 2 16 0 0 0", "admit a m 100 2 16 0 4294967296 0",
    "admit a m 100 2 16 0 -2147483649 0", "admit a m 100 2 16 0 0 18446744073709551616", "admit a m 1 2 16 0 0 -9223372036854775809",
    "admit a m 100 2 16 -1 0 0", "admit a m 100 18446744073709551616 16 0 0 0", "run a f 1", "dr\u00e4in", "invoke a \u00e4 1", "?", "-",
    "admit a m 100 2 16 0 0 0 18446744073709551616", "invoke a f 00000000000000000000 ", "release a\ta", "scan#", "drain\x00",
]
SKIPPED = ["", "", "#", "# a remark", "# \u00fc\u00df", "#drain", "# release a"]


def pick(random, shares):
    """One of these by its weight."""
    return random.choices(list(shares), list(shares.values()))[0]


class Script:
    """A script in the making, beside the model that answers it."""

    def __init__(self, seed, settings):
        self.random = random.Random(seed)
        self.settings_name = self.random.choice(list(settings))
        self.settings = settings[self.settings_name]
        self.session = Session(self.settings["frames"], self.settings["slots"], FILES, VERDICTS)
        self.lines, self.paths, self.is_heavy = [], {}, self.random.random() < 0.5
        roomy = [most for most in (16, 16, 20, 32, 32, 40, 48) if most * 3 <= self.settings["slots"]]
        self.most = self.random.choice(roomy or [16])

    def say(self, text):
        self.lines.append((text, list(self.session.line(text.encode()))))

    def any(self, *items):
        return self.random.choice(items)

    def chance(self, share):
        return self.random.random() < share

    # Numbers.
    def spelled(self, number):
        if self.chance(0.02):
            return "-0" if number == 0 else f"-{-number:04}" if number < 0 else f"{number:04}"
        return str(number)

    def address(self):
        page = self.random.choice([0, 0, 0, 1, 1, 2, 2, 3, 4, 5, 7, 9, 12, 15])
        if self.chance(0.06):
            return self.any(65528, 65529, 65532, 65533, 65535, 65536, 131071, 131072, -1, 4294967295, 2147483648)
        return page * 4096 + self.random.choice([0, 0, 0, 0, 1, 8, 4088, 4089, 4092, 4095, 2048])

    def count(self, most):
        return self.random.choice([most, -1, 0]) if self.chance(0.03) else self.random.randint(1, 16 if self.chance(0.3) else 6)

    def narrow(self):
        if self.is_heavy and self.chance(0.7):
            return self.any(1, 1, 1, 2, 2, 0)
        number = self.random.choice([0, 1, 2, 3, 5, 7, 255, 256, 1000, -1, -2, -7, -128, 1 << 31, (1 << 31) - 1, -(1 << 31), (1 << 32) - 1])
        return self.random.randint(-(1 << 31), (1 << 32) - 1) if self.chance(0.1) else number

    def long(self):
        if self.chance(0.3):
            return self.random.randint(-(1 << 63), (1 << 64) - 1)
        return self.random.choice([0, 1, 2, 3, 7, 64, -1, -2, -5, 1 << 32, 1 << 63, (1 << 63) - 1, -(1 << 63), GREATEST, 578437695752307201])

    def argument(self, kind):
        number = {
            "a": self.address,
            "n": lambda: self.count(9000 if self.chance(0.05) else 40),
            "v": self.narrow,
            "w": self.long,
            "s": lambda: self.any(0, 1, 1, 1, 2, 3, -1, 65536),
            "d": lambda: self.any(0, 1, 2, 9, 60, 126, 127, 128, 129, 500, -1),
            "m": lambda: self.any(-(1 << 63), 1 << 63, 100, -7, self.long()),
            "z": lambda: self.any(0, -1, -1, 1, 2, -3, 10),
            "i": lambda: self.any(0, 0, 1, 1, 2, 3, 4, 5, -1),
            "f": lambda: self.random.randint(0, 11),
            "l": lambda: self.any(0, 1, 3, 8, 16) if self.chance(0.9) else self.any(4096, 4097, 5000, -1),
        }[kind]()
        return self.spelled(number)

    def fuel(self, is_endless):
        if self.is_heavy and not is_endless and self.chance(0.6):
            return self.any(99, 300, 1000, 100000)
        share = self.random.random()
        if share < 0.15:
            return self.random.randint(0, 3)
        if share < 0.4:
            return self.random.randint(0, 40)
        if share < 0.6 or is_endless:
            return self.random.randint(10, 600)
        return self.any(1000, 3000, 9999, 100000) if share < 0.96 else self.any(GREATEST, GREATEST - 1, 1 << 63)

    # Names.
    def instance(self, wants=lambda held: True):
        """The name of an instance: mostly one of which that holds."""
        live = [name for name, held in self.session.names.items() if not held.is_gone]
        fitting = [name for name in live if wants(self.session.names[name])]
        if self.chance(0.015) or not self.session.names:
            return self.any("x", "nobody", "a_0", "z" * 32)
        if self.chance(0.03) or not live:
            return self.random.choice(list(self.session.names))
        return self.random.choice(fitting if fitting and self.chance(0.9) else live)

    def fresh(self, letters, taken):
        free = [letter for letter in letters if letter not in taken]
        return free[0] if free and self.chance(0.96) else self.random.choice(letters)

    def live(self):
        return [held for held in self.session.held if not held.is_gone]

    def room(self):
        """How many frames aren't promised yet."""
        return self.settings["frames"] - sum(held.least for held in self.live())

    # Lines.
    def load(self):
        name = self.fresh("mno", self.session.modules)
        path = self.random.choice(HEAVY if self.is_heavy else LIGHT)
        if self.chance(0.1):
            path = self.random.choice(WRONG)
        elif self.chance(0.03):
            path = self.any("seve", "too/great", "no.wasm", "pages/", "Seven", "1")
        is_new = name not in self.session.modules
        if path == "nothing" or path not in POOL or not self.chance(0.08) or len(POOL[path][0]) > 100:
            self.say(f"load {name} {path}")
        else:
            digits = POOL[path][0].hex()
            self.say(f"module {name} {digits.upper() if self.chance(0.3) else digits}")
        if is_new and name in self.session.modules:
            self.paths[name] = path

    def admit(self):
        name = self.fresh("abcdefgh", self.session.names)
        known = list(self.paths)
        module = self.random.choice(known) if known and self.chance(0.97) else self.any("m", "q")
        least = self.any(2, 2, 2, 3, 4)
        if self.chance(0.7) and self.room() < least:
            least = 2
        most = self.most if self.chance(0.85) else self.any(16, 17, 31, 32, 33, 64, least)
        shares = self.any(100, 100, 1, 7, 1000, 1000000)
        if self.chance(0.06):
            shares, least, most = self.any((0, 2, 16), (1000001, 2, 16), (1, 1, 16), (1, 0, 0), (1, 5, 4), (9, 2, 65537), (9, 2, 65536), (5, 65536, 65536), (1, GREATEST, GREATEST), (0, 1, 0))
        path = self.paths.get(module)
        fuel = self.fuel(path == "waiting")
        if path in ("started", "trapping") and self.chance(0.5):
            fuel = 1000
        base = self.any(0, 0, 1, 2, 3, 5, 8, 4094, 65532, 65533, -1, -2, 100) if path in ("placed", "listed", "kept") else self.any(0, 0, 7)
        inputs = "".join(" " + self.spelled(self.long()) for _ in range(self.random.randint(0, 4))) if path == "hosted" or self.chance(0.03) else ""
        salt = self.long() if path in ("hosted", "kept") else 0
        before = len(self.session.held)
        self.say(f"admit {name} {module} {shares} {least} {most} {self.spelled(fuel)} {base} {salt}{inputs}")
        if len(self.session.held) > before:
            held = self.session.held[-1]
            held.path = path
            held.start.is_endless = path == "waiting"

    def invoke(self):
        name = self.instance(lambda held: ARGUMENTS[held.path])
        held = self.session.names.get(name)
        path = held.path if held else "seven"
        known = ARGUMENTS[path]
        if not known or self.chance(0.02):
            export, kinds = self.any("f", "nof", "get", "raw", "mem", "g", "F", "f.", "set", "a,b", "#", "/"), self.any("", "v", "vv")
        else:
            export = pick(self.random, PAGES) if path == "pages" else self.random.choice(list(known))
            kinds = known[export]
        words = [self.argument(kind) for kind in kinds]
        if self.chance(0.02) and words:
            words[-1] = self.any("4294967296", "-2147483649", "18446744073709551616", "-9223372036854775809", "99999999999999999999", "-4294967296")
        if self.chance(0.015):
            words = words[1:] if words and self.chance(0.5) else [*words, "0"]
        is_endless = (path, export) in ENDLESS
        before = len(self.session.calls)
        self.say(" ".join([f"invoke {name} {export} {self.spelled(self.fuel(is_endless))}", *words]))
        if len(self.session.calls) > before:
            self.session.calls[-1].is_endless = is_endless

    def refuel(self):
        name = self.instance(lambda held: held.calls)
        held = self.session.names.get(name)
        # A call that never ends may come to be the present one when the line drains.
        is_endless = not held or any(call.is_endless for call in held.calls)
        self.say(f"refuel {name} {self.spelled(self.fuel(is_endless))}")

    def cancel(self):
        self.say(f"cancel {self.instance(lambda held: held.calls)}")

    def retry(self):
        self.say(f"retry {self.instance()}")

    def release(self):
        name = self.instance()
        held = self.session.names.get(name)
        if held and not held.is_gone and any(call.function is not None for call in held.calls) and held.path == "hosted":
            self.say("drain")  # It may put out a lot, and that would be said in full.
        if not held or len(held.guest.output) <= 120:
            self.say(f"release {name}")

    def junk(self):
        self.say(self.random.choice(JUNK))

    def skipped(self):
        self.say(self.random.choice(SKIPPED))

    def plain(self):
        self.say(pick(self.random, {"drain": 5, "scan": 11 if self.is_heavy else 4, "report": 2}))

    def shares(self):
        """How often which lines come: most are for instances, and some only where a call waits."""
        if not self.live():
            return {"admit": 6, "load": 3, "invoke": 1, "release": 1, "skipped": 1}
        is_waiting = any(held.calls for held in self.live())
        return {
            "invoke": 46, "plain": 15, "refuel": 14 if is_waiting else 1, "cancel": 4 if is_waiting else 1, "retry": 1,
            "release": 3, "admit": 6 if self.room() > 1 else 2, "load": 2, "junk": 3, "skipped": 3,
        }

    def make(self):
        for _ in range(self.random.choice([1, 1, 2, 3])):
            self.load()
        for _ in range(self.random.choice([1, 2, 2, 3, 4])):
            self.admit()
        length = min(59, 8 + int(self.random.expovariate(1 / 15)))
        while len(self.lines) < length:
            getattr(self, pick(self.random, self.shares()))()
        return self


def table_of(script, name):
    """The lines of a table for a script."""
    is_unended = script.random.random() < 0.1
    out = [f"script {name} {script.settings_name}" + (" unended" if is_unended else "")]
    for text, replies in script.lines:
        out.append(">" + text)
        out += ["<" + reply for reply in replies]
    return out + ["<" + reply for reply in script.session.end()]


def random_settings(count):
    """Documents of settings, of which most have few frames, so that pages have to leave and come back."""
    chosen = random.Random(7)
    out = {"default": {"frames": 1024, "slots": 4096}}
    for place in range(1, count):
        least = chosen.randint(0, 9)
        out[f"s{place}"] = {
            "frames": chosen.choice([2, 3, 4, 5, 6, 6, 7, 8, 8, 9, 10, 12, 14, 16, 24, 40]),
            "slots": chosen.choice([15, 31, 60, 64, 90, 100, 128, 150, 160, 200, 256, 300]),
            "tax_num": least,
            "tax_den": least + chosen.randint(1, 10),
            "quantum": chosen.choice([1, 2, 3, 5, 10, 64, 1000]),
            "hash": chosen.choice(["constant", "constant", "fnv64"]),
        }
    return out


def table_of_settings(settings):
    out = []
    for name, document in settings.items():
        out.append(f"settings {name}")
        out += [f":{key} = " + (f'"{value}"' if isinstance(value, str) else str(value)) for key, value in document.items()]
    return out


def scripts(first, count, settings):
    """Random scripts as the lines of a table."""
    out = []
    for seed in range(first, first + count):
        out += table_of(Script(seed, settings).make(), seed)
    return out


if __name__ == "__main__":
    print("\n".join(scripts(int(sys.argv[1]), int(sys.argv[2]), random_settings(40))))
