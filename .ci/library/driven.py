"""A script driven through the library, answered as wasmhost answers it: the lines are read by the second model of scripts
(crates/test_sessions/model), and what they ask is asked of a host behind a handle."""
import itertools
import os
import sys

ROOT = os.path.dirname(os.path.dirname(os.path.dirname(os.path.abspath(__file__))))
sys.path[:0] = [ROOT + "/bindings/python", ROOT + "/crates/test_sessions/model"]
import generate  # First: behind it another module of this name comes onto the path.
import wolqedir
from model import Refused, Session, count, long, narrow, numbers
from reference import Module
from wasm import I32

MOST = wolqedir.MOST
# More arguments than any function takes.
TOO_MANY = [0] * 300


def weighed(row, tax):
    """The fraction of an instance's shares to what its frames weigh."""
    num, den = tax
    weight = row.active * (den - num) + (row.charged - row.active) * den
    return f"{row.shares * (den - num)}/{weight}" if weight else "-"


def lines_of(report):
    """The lines of a script's report with these numbers."""
    yield f"# frames {report.frames} used {report.used_frames} free {report.frames - report.used_frames}"
    yield f"# slots {report.slots} used {report.used_slots} free {report.slots - report.used_slots}"
    yield f"# shared frames {report.shared_frames} sharers {report.sharers}"
    for row in report.instances:
        given = f"{row.instance.number:6}{row.shares:8}{row.min:6}{row.max:6}"
        yield f"#{given}{row.charged:6}{row.active:6}{row.swapped:6} {weighed(row, report.tax)}"


class Asked:
    """A call that was asked for, or a start: its name, its place, and the last line that was printed of it."""

    def __init__(self, name, held, place, line=None):
        self.name, self.held, self.place, self.last, self.said, self.is_hidden = name, held, place, line, None, False


class Kept:
    """An instance of the host."""

    def __init__(self, name, instance, module):
        self.name, self.instance, self.module, self.is_gone = name, instance, module, False


class Driven(Session):
    """What the library answers, line by line. Runs take `slice()` charges at a time."""

    def __init__(self, settings, files, slice):
        super().__init__(settings["frames"], settings["slots"], files, None)
        tax = settings.get("tax_num", 3), settings.get("tax_den", 4)
        self.host = wolqedir.Host(settings["frames"], settings["slots"], tax)
        self.slice, self.starts, self.codes, self.words, self.reported = slice, [], set(), {}, []

    def asked(self, act):
        """What an act answers; a refusal is one of the model's, without place."""
        try:
            return act()
        except wolqedir.Refused as refused:
            self.codes.add(refused.code)
            raise Refused(refused.fault)

    def line_of(self, call):
        """The line that says how far a call is."""
        if call.place is None or call.held.is_gone:
            return call.last
        kind, value, charges, fault = self.host.status(call.held.instance, call.place)
        if kind in ("dead", "waiting"):
            return f"{call.name} {'queued' if kind == 'waiting' else kind}"
        if kind == "returned":
            return f"{call.name} done{'' if value is None else f' {value}'} charges {charges}"
        if kind == "trapped":
            return f"{call.name} trap {fault} charges {charges}"
        return f"{call.name} {kind} charges {charges}"

    def drain(self):
        while True:
            most = self.slice()
            ran = self.host.run(most)
            assert ran.charges <= most and (not ran.goes_on or ran.charges == most), (most, ran)
            if not ran.goes_on:
                break
        for call in [start for start in self.starts if not start.is_hidden] + self.calls:
            line = self.line_of(call)
            if line != call.said:
                self.out.append(line)
                call.said = line

    def keep(self, name, contents):
        self.drain()
        try:
            number = self.asked(lambda: self.host.load(bytes(contents)))
        except Refused as refused:
            self.out.append(f"module {name} refused {refused.args[0]}")
            return
        self.modules[name] = number, Module(bytes(contents))
        self.out.append(f"module {name} ok")

    def admit(self, name, module, shares, least, most, fuel, base, salt, inputs):
        shares, least, most, fuel = count(shares), count(least), count(most), count(fuel)
        base, salt, inputs = narrow(base), long(salt), [long(word) for word in numbers(inputs)]
        if module not in self.modules:
            raise Refused("C2")
        if name in self.names:
            raise Refused("C3")
        self.drain()
        number, parsed = self.modules[module]
        try:
            instance = self.asked(lambda: self.host.admit(number, shares, least, most, fuel, salt, base, inputs))
        except Refused as refused:
            self.out.append(f"admit {name} refused {refused.args[0]}")
            return
        held = self.names[name] = Kept(name, instance, parsed)
        self.held.append(held)
        start = Asked(f"start {name}", held, 0)
        start.is_hidden = self.host.status(instance, 0).kind == "returned"
        self.starts.append(start)
        self.out.append(f"admit {name} ok {instance.number}")

    def invoke(self, name, export, fuel, words):
        fuel, held = count(fuel), self.instance(name)
        self.count += 1
        call = Asked(f"call {self.count}", held, None)
        self.calls.append(call)
        words = self.passed(held, export, [int(word) for word in numbers(words)])
        try:
            call.place = self.asked(lambda: self.host.invoke(held.instance, export, words, fuel=fuel))
        except Refused as refused:
            call.last = f"{call.name} refused {refused.args[0]}"

    def passed(self, held, export, words):
        """The arguments as numbers of 64 bits; too many, where one is out of the range of its type, or of all, and can't be passed
        so."""
        exports = {name: index for name, kind, index in held.module.exports if kind == 0}
        params = held.module.type_of(exports[export])[0] if export in exports else []
        for word, kind in itertools.zip_longest(words, params[: len(words)]):
            if not -(1 << 63) <= word < (1 << 63 if kind == I32 else 1 << 64):
                return TOO_MANY
        return words

    def reply(self, command, name, act):
        held = self.instance(name)
        self.drain()
        try:
            self.out.append(f"{command} {name} ok{self.asked(lambda: act(held)) or ''}")
        except Refused as refused:
            self.out.append(f"{command} {name} refused {refused.args[0]}")

    def refuel(self, name, more):
        more = count(more)
        self.reply("refuel", name, lambda held: self.host.refuel(held.instance, more))

    def cancel(self, name):
        self.reply("cancel", name, lambda held: self.host.cancel(held.instance))

    def retry(self, name):
        self.reply("retry", name, lambda held: self.host.retry(held.instance))

    def release(self, name):
        self.reply("release", name, self.let_go)

    def let_go(self, held):
        """Lets an instance go, and keeps what is told of its calls: those that were open are released where they were."""
        told = [(call, self.line_of(call)) for call in self.starts + self.calls if call.held is held and not held.is_gone]
        taken = [self.host.status(held.instance, call.place) for call, _ in told if call.place is not None]
        output = self.host.release(held.instance)
        held.is_gone = True
        states = iter(taken)
        for call, line in told:
            state = next(states) if call.place is not None else None
            is_open = state is not None and state.kind in ("waiting", "fuel", "going", "frame")
            call.last = f"{call.name} released charges {state.charges}" if is_open else line
        return " " + (output.hex() or "-")

    def scan(self):
        self.drain()
        self.host.scan()
        self.out.append("scan ok")

    def report(self):
        self.drain()
        self.reported += lines_of(self.host.report())

    def transcripts(self):
        """Looks whether the transcript of each instance tells of its calls what their statuses do. How many calls that are."""
        count = 0
        for held in self.held:
            if held.is_gone:
                continue
            entries = self.host.transcript(held.instance)
            told = [self.host.status(held.instance, place) for place in range(len(entries))]
            for entry, status in zip(entries, told):
                ended = status.kind if status.kind in ("returned", "trapped", "cancelled", "dead") else "open"
                trap = int(status.fault[1:]) if status.kind == "trapped" else None
                result = trap if status.value is None else status.value
                assert (entry.kind, entry.charges) == (ended, status.charges), (entry, status)
                assert entry.result == result or (entry.result - result) % 2**32 == 0, (entry, status)
                assert entry.charges <= entry.fuel, entry
            try:
                self.host.status(held.instance, len(entries))
                raise AssertionError(entries)
            except wolqedir.Refused:
                count += len(entries)
        return count

    def traps(self):
        """The codes of the traps of calls that can be asked."""
        for call in self.starts + self.calls:
            if call.place is not None and not call.held.is_gone:
                fault = self.host.status(call.held.instance, call.place).fault
                if fault:
                    yield 256 * wolqedir.FAMILIES.index(fault[0]) + int(fault[1:])
