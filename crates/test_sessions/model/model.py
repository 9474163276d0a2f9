"""A second model of scripts, written apart from the engine and in the plainest way: what each line of a script is answered.
Functions are executed by the second machine of test_machine. Frames, slots and the tax are only counted here: no reply but
those to `admit` depends on them."""
import re

import modules  # Puts the folder of the second machine on the path.
from reference import Instance, Module, Reader, expression, targets
from wasm import DATA, ELEMENT, I32, MEMORY, START, TABLE

PAGE, FRAME, MOST = 65536, 4096, (1 << 64) - 1
NAME, WORD, NUMBER, HEX = r"([a-z0-9_]{1,32})", r"([^ ]+)", r"(-?[0-9]{1,20})", r"((?:[0-9a-fA-F]{2})+)"
SHAPES = {
    "module": f"module {NAME} {HEX}",
    "load": f"load {NAME} {WORD}",
    "admit": f"admit {NAME} {NAME} {NUMBER} {NUMBER} {NUMBER} {NUMBER} {NUMBER} {NUMBER}((?: -?[0-9]{{1,20}})*)",
    "invoke": f"invoke {NAME} {WORD} {NUMBER}((?: -?[0-9]{{1,20}})*)",
    "drain": "drain",
    "refuel": f"refuel {NAME} {NUMBER}",
    "cancel": f"cancel {NAME}",
    "retry": f"retry {NAME}",
    "scan": "scan",
    "report": "report",
    "release": f"release {NAME}",
}
LONGEST, MODULES, INSTANCES, OPEN, CALLS = 2200000, 1024, 4096, 1024, 65536


class Refused(Exception):
    """A line that can't be obeyed, or a request that is refused, by letter and number."""


class Guest(Instance):
    """An instance as it is admitted: globals and table are set, and data waits for the start."""

    def __init__(self, module, most, base, salt, inputs):
        self.module = module
        self.base, self.salt = base % (1 << 32), salt % (1 << 64)
        self.inputs, self.output = [word % (1 << 64) for word in inputs], bytearray()
        self.functions = [(code, targets(code)) for _, code in module.bodies]
        self.counts = [sum(count for count, _ in groups) for groups, _ in module.bodies]
        self.globals = [self.imported_global(name) for _, name, kind, _ in module.imports if kind == 3]
        for _, _, code in module.globals:
            self.globals.append(self.constant(code))
        size, declared = (module.read(MEMORY, Reader.limits) or [(0, None)])[0]
        self.most_pages = min(most // 16, PAGE if declared is None else declared)
        if size > most // 16:
            raise Refused("A7")
        self.memory = bytearray(PAGE * size)
        self.table = [None] * (module.read(TABLE, lambda r: (r.byte(), r.limits()[0])) or [(0, 0)])[0][1]
        elements = self.segments(ELEMENT, lambda r: r.vector(Reader.unsigned), len(self.table))
        data = self.segments(DATA, lambda r: r.take(r.unsigned()), len(self.memory))
        for at, members in elements:
            self.table[at : at + len(members)] = members
        self.fragments = [fragment for at, contents in data for fragment in cut(at, contents)]
        self.first = Reader(module.sections[START]).unsigned() if START in module.sections else None
        self.frames, self.stack, self.charges, self.deepest = [], [], 0, 0

    def segments(self, number, contents, room):
        found = self.module.read(number, lambda r: (r.unsigned(), expression(r), contents(r)))
        out = [(self.constant(code), items) for _, code, items in found]
        if any(at + len(items) > room for at, items in out):
            raise Refused("A8")
        return out

    def own_function(self, name):
        """The function that the module itself defines and exports under this name."""
        for found, kind, index in self.module.exports:
            if found == name and kind == 0 and index >= len(self.module.imported):
                return index
        raise Refused("H2")

    def write_data(self):
        for at, contents in self.fragments:
            self.memory[at : at + len(contents)] = contents


def cut(at, contents):
    """The pieces of a segment, none of which lies on two pages of a frame."""
    while contents:
        length = FRAME - at % FRAME
        yield at, contents[:length]
        at, contents = at + length, contents[length:]


class Call:
    """A call, or the start of an instance. `said` is the last line that was printed of it."""

    def __init__(self, name, function, words, fuel):
        self.name, self.function, self.words, self.fuel = name, function, words, fuel
        self.charges, self.is_begun, self.ending, self.said, self.is_hidden = 0, False, None, None, False
        self.fault = None

    def line(self, is_present):
        if self.ending is None and self.fault is not None:
            return f"{self.name} frame {self.fault} charges {self.charges}"
        if self.ending is None:
            return f"{self.name} fuel charges {self.charges}" if is_present else f"{self.name} queued"
        if self.ending == "dead" or self.ending.startswith("refused"):
            return f"{self.name} {self.ending}"
        return f"{self.name} {self.ending} charges {self.charges}"


class Held:
    """An instance of the host: what it was promised, its calls that haven't ended, and how many it has had, its start among
    them."""

    def __init__(self, name, guest, least, most, fuel):
        self.name, self.guest, self.least, self.most = name, guest, least, most
        self.is_gone = self.is_dead = False
        self.start = Call(f"start {name}", guest.first, [], fuel)
        self.calls, self.had = [self.start], 1
        if guest.first is None and not guest.fragments:
            self.start.is_hidden, self.calls = True, []

    def present(self):
        if self.is_gone:
            raise Refused("H1")
        if not self.calls:
            raise Refused("H8")
        return self.calls[0]

    def end(self, ending):
        """The present call ends. With its start go all that wait."""
        call = self.calls.pop(0)
        call.ending = ending
        if call is self.start and (ending.startswith("trap") or ending == "cancelled"):
            self.is_dead = True
            for waiting in self.calls:
                waiting.ending = "dead"
            self.calls = []

    def go_on(self, faults):
        """Runs calls until one stands for fuel or for a fault of the device, or none is left. `faults` says by the names of
        calls which fault each meets, and behind how many charges."""
        while self.calls:
            call, guest = self.calls[0], self.guest
            if not call.is_begun:
                call.is_begun = True
                if call is self.start:
                    guest.write_data()
                if call.function is None:
                    self.end("done")
                    continue
                guest.begin(call.function, call.words)
            fault, most = faults.get(call.name, (None, MOST))
            kind, value = guest.run(min(call.fuel, most))
            call.charges = guest.charges
            if kind == "fuel" and most < call.fuel:
                call.fault = fault
                return
            if kind == "fuel":
                return
            self.end(f"trap T{value}" if kind == "trap" else "done" + self.result(call.function, value))

    def result(self, function, value):
        results = self.guest.module.type_of(function)[1]
        if not results:
            return ""
        bits = 32 if results[0] == I32 else 64
        return f" {value - (value >> bits - 1 << bits)}"


def ranged(text, least, most):
    number = int(text)
    if not least <= number <= most:
        raise Refused("C1")
    return number


def count(text):
    return ranged(text, 0, MOST)


def narrow(text):
    return ranged(text, -(1 << 31), (1 << 32) - 1)


def long(text):
    return ranged(text, -(1 << 63), MOST)


def numbers(text):
    return text.split(" ")[1:]


class Session:
    """What a host with these frames and slots answers, line by line. `files` gives contents by paths, None for want of memory."""

    def __init__(self, frames, slots, files, verdicts):
        self.frames, self.slots, self.files, self.verdicts = frames, slots, files, verdicts
        self.modules, self.names, self.held, self.calls, self.faults = {}, {}, [], [], {}
        self.count, self.number, self.out = 0, 0, []

    def line(self, text):
        """The replies to the next line, without its newline."""
        self.number += 1
        self.out = []
        if text and not text.startswith(b"#"):
            try:
                self.obey(text)
            except Refused as refused:
                self.drain()
                self.out.append(f"error {refused.args[0]} line {self.number}")
        return self.out

    def end(self):
        """What is printed behind the last line."""
        self.out = []
        self.drain()
        return self.out

    def obey(self, text):
        if len(text) > LONGEST or max(text) > 127:
            raise Refused("C1")
        text = text.decode()
        command = text.split(" ")[0]
        found = re.fullmatch(SHAPES.get(command, "(?!)"), text, re.DOTALL)
        if not found:
            raise Refused("C1")
        if command == "invoke":
            return self.invoke(*found.groups())
        getattr(self, command)(*found.groups())

    def drain(self):
        for held in self.held:
            if not held.is_gone:
                held.go_on(self.faults)
        present = [held.calls[0] for held in self.held if held.calls]
        for call in [held.start for held in self.held if not held.start.is_hidden] + self.calls:
            line = call.line(call in present)
            if line != call.said:
                self.out.append(line)
                call.said = line

    def reply(self, command, name, act):
        """Drains, does what a command asks of an instance, and says how it went."""
        held = self.instance(name)
        self.drain()
        try:
            self.out.append(f"{command} {name} ok{act(held) or ''}")
        except Refused as refused:
            self.out.append(f"{command} {name} refused {refused.args[0]}")

    def instance(self, name):
        if name not in self.names:
            raise Refused("C2")
        return self.names[name]

    def keep(self, name, contents):
        self.drain()
        verdict = self.verdicts[bytes(contents)]
        if verdict == "ok" and len(self.modules) >= MODULES:
            verdict = "refused M1"
        if verdict == "ok":
            self.modules[name] = Module(bytes(contents))
        self.out.append(f"module {name} {verdict}")

    def module(self, name, digits):
        if name in self.modules:
            raise Refused("C3")
        self.keep(name, bytes.fromhex(digits))

    def load(self, name, path):
        if name in self.modules:
            raise Refused("C3")
        if path not in self.files:
            raise Refused("C4")
        if self.files[path] is None:
            raise Refused("C5")
        self.keep(name, self.files[path])

    def admit(self, name, module, shares, least, most, fuel, base, salt, inputs):
        shares, least, most, fuel = count(shares), count(least), count(most), count(fuel)
        base, salt, inputs = narrow(base), long(salt), [long(word) for word in numbers(inputs)]
        if module not in self.modules:
            raise Refused("C2")
        if name in self.names:
            raise Refused("C3")
        self.drain()
        try:
            self.look(shares, least, most)
            guest = Guest(self.modules[module], most, base, salt, inputs)
        except Refused as refused:
            self.out.append(f"admit {name} refused {refused.args[0]}")
            return
        held = Held(name, guest, least, most, fuel)
        self.out.append(f"admit {name} ok {len(self.held)}")
        self.names[name] = held
        self.held.append(held)

    def look(self, shares, least, most):
        """What is looked at of an admission before the module is."""
        there = [held for held in self.held if not held.is_gone]
        if not 1 <= shares <= 1000000:
            raise Refused("A2")
        if not 2 <= least <= most <= 65536:
            raise Refused("A3")
        if sum(held.least for held in there) + least > self.frames:
            raise Refused("A4")
        if sum(held.most - held.least + 1 for held in there) + most - least + 1 > self.slots:
            raise Refused("A5")
        if len(there) >= INSTANCES:
            raise Refused("A6")

    def invoke(self, name, export, fuel, words):
        fuel = count(fuel)
        held = self.instance(name)
        self.count += 1
        call = Call(f"call {self.count}", None, [], fuel)
        self.calls.append(call)
        try:
            call.function, call.words = self.accepted(held, export, [int(word) for word in numbers(words)])
            held.calls.append(call)
            held.had += 1
        except Refused as refused:
            call.ending = f"refused {refused.args[0]}"

    def accepted(self, held, export, words):
        """The function and the words of a call that the host takes."""
        if held.is_gone:
            raise Refused("H1")
        function = held.guest.own_function(export)
        params = held.guest.module.type_of(function)[0]
        bits = [32 if kind == I32 else 64 for kind in params]
        if len(bits) != len(words) or any(not -(1 << n - 1) <= word < 1 << n for n, word in zip(bits, words)):
            raise Refused("H3")
        if sum(call is not held.start for call in held.calls) >= OPEN:
            raise Refused("H4")
        if held.is_dead:
            raise Refused("H5")
        if held.had >= CALLS:
            raise Refused("H6")
        return function, [word % (1 << n) for n, word in zip(bits, words)]

    def refuel(self, name, more):
        more = count(more)

        def act(held):
            call = held.present()
            call.fuel = min(call.fuel + more, MOST)

        self.reply("refuel", name, act)

    def cancel(self, name):
        def act(held):
            held.present()
            held.end("cancelled")

        self.reply("cancel", name, act)

    def retry(self, name):
        def act(held):
            call = held.present()
            if call.fault is None:
                raise Refused("H8")
            call.fault = None
            del self.faults[call.name]

        self.reply("retry", name, act)

    def release(self, name):
        def act(held):
            if held.is_gone:
                raise Refused("H1")
            held.is_gone = True
            for call in held.calls:
                call.ending = "released"
            held.calls = []
            return " " + (held.guest.output.hex() or "-")

        self.reply("release", name, act)

    def scan(self):
        self.drain()
        self.out.append("scan ok")

    def report(self):
        self.drain()
