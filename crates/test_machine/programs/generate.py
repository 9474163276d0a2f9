#!/usr/bin/env python3
"""Random modules, and what calls of them give. `python3 generate.py SEED COUNT` prints a table (its form is in README.md) with
so many modules. Outcomes are those of wasm-interp, and reference.py must come to them too; charges are reference.py's."""
import random, re, subprocess, sys, tempfile

from make import LATER, run
from reference import BOUNDS, EMPTY, OVERFLOW, TABLE_BOUNDS, TYPES, UNREACHABLE_TRAP, ZERO, Instance, outcome

BUDGET, CALL_COST, CALLS = 2000, 50, 8
KINDS, GLOBALS = ["i32", "i64"], {"i32": "a", "i64": "b"}
MESSAGES = {
    "unreachable executed": UNREACHABLE_TRAP,
    "integer divide by zero": ZERO,
    "integer overflow": OVERFLOW,
    "out of bounds memory access": BOUNDS,
    "undefined table index": TABLE_BOUNDS,
    "out of bounds table access": TABLE_BOUNDS,
    "uninitialized table element": EMPTY,
    "indirect call signature mismatch": TYPES,
}
BINARY = "add sub mul div_s div_u rem_s rem_u and or xor shl shr_s shr_u rotl rotr".split()
COMPARE = "eq ne lt_s lt_u gt_s gt_u le_s le_u ge_s ge_u".split()
UNARY = {
    "i32": "clz ctz popcnt extend8_s extend16_s".split(),
    "i64": "clz ctz popcnt extend8_s extend16_s extend32_s".split(),
}
LOADS = {
    "i32": {"load": 4, "load8_s": 1, "load8_u": 1, "load16_s": 2, "load16_u": 2},
    "i64": {"load": 8, "load8_s": 1, "load8_u": 1, "load16_s": 2, "load16_u": 2, "load32_s": 4, "load32_u": 4},
}
STORES = {
    "i32": {"store": 4, "store8": 1, "store16": 2},
    "i64": {"store": 8, "store8": 1, "store16": 2, "store32": 4},
}
DIGEST = """(func (export "digest") (result i64) (local $at i32) (local $sum i64)
  loop $next
    local.get $sum i64.const 0x9E3779B97F4A7C15 i64.mul i64.const 31 i64.rotl
    local.get $at i64.load i64.add local.set $sum
    local.get $at i32.const 8 i32.add local.tee $at
    memory.size i32.const 16 i32.shl i32.lt_u br_if $next
  end
  local.get $sum global.get $a i64.extend_i32_u i64.xor global.get $b i64.add)"""


class Function:
    """The body of one function, in the text format. A method gives instructions that leave a word of the type `kind`, or none
    where it is None; or it gives None, where the function has nothing to make them of."""

    def __init__(self, chance, types, functions, own):
        self.chance, self.types, self.functions = chance, types, functions
        self.params, self.result = types[own]
        self.locals = [*self.params, *chance.choices(KINDS, k=chance.randint(1, 4))]
        self.labels = [self.result]
        self.left = chance.choice([40, 150, 400])
        self.value_forms = [self.binary] * 6 + [self.load] * 2 + [self.block] * 2 + [self.tested] * 3 + [
            self.unary, self.selected, self.called, self.kept, self.leaving, self.elsewhere, self.converted, self.size,
        ]
        self.statement_forms = [self.stored] * 2 + [self.set_local] * 3 + [self.set_global] * 2 + [self.block] * 2 + [
            self.dropped, self.leaving, self.called, self.elsewhere,
        ]

    def text(self, name, own):
        declared = " ".join(f"(local {kind})" for kind in self.locals[len(self.params) :])
        body = [self.pays(CALL_COST), *self.body(self.result, 0)]
        return f"(func ${name} (type {own}) {declared}\n  " + "\n  ".join(body) + ")"

    def pays(self, price):
        """Returns where the budget is used up."""
        zero = f"{self.result}.const 0 " if self.result else ""
        return (
            f"global.get $budget i32.const {price} i32.lt_s if {zero}return end "
            f"global.get $budget i32.const {price} i32.sub global.set $budget"
        )

    def body(self, kind, deep):
        forms = [self.statement(deep) for _ in range(self.chance.randint(0, 4)) if self.left > 0]
        return [*forms, self.value(kind, deep)] if kind else forms

    def statement(self, deep):
        self.left -= 1
        form = self.chance.choice(self.statement_forms)
        return deep < 6 and form(None, deep + 1) or "nop"

    def value(self, kind, deep):
        self.left -= 1
        if self.left < 0 or deep > 6 or self.chance.random() < 0.15:
            return self.leaf(kind)
        return self.chance.choice(self.value_forms)(kind, deep + 1) or self.leaf(kind)

    def values(self, kinds, deep):
        return " ".join(self.value(kind, deep) for kind in kinds)

    def leaf(self, kind):
        local = self.local(kind)
        plain = [self.constant(kind), f"global.get ${GLOBALS[kind]}"]
        return self.chance.choice(plain if local is None else [*plain, *[f"local.get {local}"] * 3])

    def constant(self, kind):
        bits = 32 if kind == "i32" else 64
        edges = [0, 1, 2, 7, -1, 1 << bits - 1, (1 << bits - 1) - 1]
        some = [self.chance.getrandbits(bits), self.chance.getrandbits(8), 1 << self.chance.randrange(bits)]
        return f"{kind}.const {self.chance.choice(edges + some)}"

    def local(self, kind):
        found = [place for place, other in enumerate(self.locals) if other == kind]
        return self.chance.choice(found) if found else None

    def label(self, kind):
        found = [depth for depth, other in enumerate(reversed(self.labels)) if other == kind]
        return self.chance.choice(found) if found else None

    # Numbers

    def binary(self, kind, deep):
        name = self.chance.choice(BINARY)
        is_odd = name[:3] in ("div", "rem") and self.chance.random() < 0.9
        odd = f"{kind}.const 1 {kind}.or " if is_odd else ""
        return f"{self.values([kind, kind], deep)} {odd}{kind}.{name}"

    def unary(self, kind, deep):
        return f"{self.value(kind, deep)} {kind}.{self.chance.choice(UNARY[kind])}"

    def tested(self, kind, deep):
        of = self.chance.choice(KINDS)
        if kind == "i64":
            return None
        if self.chance.random() < 0.2:
            return f"{self.value(of, deep)} {of}.eqz"
        return f"{self.values([of, of], deep)} {of}.{self.chance.choice(COMPARE)}"

    def converted(self, kind, deep):
        if kind == "i32":
            return f"{self.value('i64', deep)} i32.wrap_i64"
        return f"{self.value('i32', deep)} i64.extend_i32_{self.chance.choice('su')}"

    def selected(self, kind, deep):
        return f"{self.values([kind, kind, 'i32'], deep)} select"

    # Locals, globals and the memory

    def kept(self, kind, deep):
        local = self.local(kind)
        return None if local is None else f"{self.value(kind, deep)} local.tee {local}"

    def set_local(self, _, deep):
        place = self.chance.randrange(len(self.locals))
        return f"{self.value(self.locals[place], deep)} local.set {place}"

    def set_global(self, _, deep):
        kind = self.chance.choice(KINDS)
        return f"{self.value(kind, deep)} global.set ${GLOBALS[kind]}"

    def dropped(self, _, deep):
        return f"{self.value(self.chance.choice(KINDS), deep)} drop"

    def address(self, deep):
        masked = f" i32.const {self.chance.choice([255, 4095, 32767])} i32.and"
        return self.value("i32", deep) + (masked if self.chance.random() < 0.97 else "")

    def access(self, widths):
        """One of these loads or stores, with where it goes."""
        name = self.chance.choice([*widths])
        offset = self.chance.choice([0, 1, 8, 100, 4095] * 6 + [65528, 65536, 131000, 0xFFFFFFFF, 0xFFFF0000])
        return f"{name} offset={offset} align={1 << self.chance.randrange(widths[name].bit_length())}"

    def load(self, kind, deep):
        return f"{self.address(deep)} {kind}.{self.access(LOADS[kind])}"

    def stored(self, _, deep):
        kind = self.chance.choice(KINDS)
        return f"{self.address(deep)} {self.value(kind, deep)} {kind}.{self.access(STORES[kind])}"

    def size(self, kind, _):
        grown = f"i32.const {self.chance.choice([0, 1, 1, 3, -1])} memory.grow"
        return self.chance.choice(["memory.size", grown]) if kind == "i32" else None

    # Control

    def block(self, kind, deep):
        """A block, a loop or an if."""
        form = self.chance.choice(["block", "loop", "if"])
        self.labels.append(None if form == "loop" else kind)
        bodies = [" ".join(self.body(kind, deep + 1))]
        if form == "if" and (kind or self.chance.random() < 0.5):
            bodies.append(" ".join(self.body(kind, deep + 1)))
        self.labels.pop()
        head = {"block": "block", "loop": "loop", "if": f"{self.value('i32', deep)} if"}[form]
        result = f" (result {kind})" if kind else ""
        paid = self.pays(1) + " " if form == "loop" else ""
        return f"{head}{result} {paid}{' else '.join(bodies)} end"

    def called(self, kind, deep):
        fitting = [place for place, (_, result) in enumerate(self.types) if result == kind]
        names = [name for name, own in self.functions.items() if own in fitting]
        if names and self.chance.random() < 0.6:
            name = self.chance.choice(names)
            return f"{self.values(self.types[self.functions[name]][0], deep)} call ${name}"
        if not fitting:
            return None
        own, mask = self.chance.choice(fitting), self.chance.choice([7, 7, 7, 15])
        given = self.values([*self.types[own][0], "i32"], deep)
        return f"{given} i32.const {mask} i32.and call_indirect (type {own})"

    def leaving(self, kind, deep):
        label = self.label(kind)
        return None if label is None else f"{self.values([kind, 'i32'] if kind else ['i32'], deep)} br_if {label}"

    def elsewhere(self, _, deep):
        """Seldom: never comes behind what it gives, so any type will do."""
        if self.chance.random() < 0.7:
            return None
        depth = self.chance.randrange(len(self.labels))
        kind = self.labels[-1 - depth]
        form = self.chance.choice(["br", "br_table", "return", "unreachable"])
        if form == "br":
            return f"{self.values([kind] if kind else [], deep)} br {depth}"
        if form == "br_table":
            labels = " ".join(str(self.label(kind)) for _ in range(self.chance.randint(0, 4)))
            return f"{self.values([kind, 'i32'] if kind else ['i32'], deep)} i32.const 7 i32.and br_table {labels} {depth}"
        if form == "return":
            return f"{self.values([self.result] if self.result else [], deep)} return"
        return "unreachable" if self.chance.random() < 0.2 else None


def module_text(chance):
    types = [
        (chance.choices(KINDS, k=chance.randint(0, 3)), chance.choice([None, *KINDS, *KINDS]))
        for _ in range(chance.randint(2, 5))
    ]
    types.append(chance.choice(types))
    functions = {f"f{place}": chance.randrange(len(types)) for place in range(chance.randint(2, 6))}
    members = " ".join("$" + chance.choice([*functions]) for _ in range(9))
    written = "".join(f"\\{byte:02x}" for byte in chance.randbytes(64))
    lines = [f"(type (func {' '.join(f'(param {kind})' for kind in params)} {result_of(result)}))" for params, result in types]
    lines += [
        "(memory 1 3) (table 12 funcref) (global $budget (mut i32) (i32.const 0))",
        f"(global $a (mut i32) (i32.const {chance.getrandbits(32)}))",
        f"(global $b (mut i64) (i64.const {chance.getrandbits(64)}))",
        f"(elem (i32.const {chance.randint(0, 1)}) {members})",
        f'(data (i32.const {chance.choice([0, 100, 65536 - 64])}) "{written}")',
    ]
    lines += [Function(chance, types, functions, own).text(name, own) for name, own in functions.items()]
    for place in range(CALLS):
        name = chance.choice([*functions])
        params, result = types[functions[name]]
        maker = Function(chance, types, functions, functions[name])
        given = " ".join(maker.constant(kind) for kind in params)
        head = f'(func (export "call{place}") {result_of(result)}'
        lines.append(f"{head} i32.const {BUDGET} global.set $budget {given} call ${name})")
    return "(module\n" + "\n".join([*lines, DIGEST]) + ")\n"


def result_of(kind):
    return f"(result {kind})" if kind else ""


def interpreted(path):
    """What wasm-interp says of each export, in order."""
    done = subprocess.run(["wasm-interp", *LATER, path, "--run-all-exports"], capture_output=True, text=True)
    found = []
    for line in done.stdout.splitlines():
        name, said = re.fullmatch(r"(\w+)\(\) =>(.*)", line).groups()
        said = said.strip()
        if said.startswith("error: "):
            message = next(message for message in MESSAGES if message in said)
            said = f"trap T{MESSAGES[message]}"
        found.append((name, said.replace(":", " ") or "done"))
    return found


def lines_of(name, chance, folder):
    text, binary = folder + "/random.wat", folder + "/random.wasm"
    with open(text, "w") as file:
        file.write(module_text(chance))
    run("wat2wasm", *LATER, text, "-o", binary)
    with open(binary, "rb") as file:
        data = file.read()
    yield f"module {name} {data.hex()}"
    instance, answers = Instance(data), interpreted(binary)
    assert len(answers) == CALLS + 1, (name, answers)
    for export, said in answers:
        index = instance.module.exported(export)
        instance.begin(index, [])
        found = outcome(instance, instance.module.type_of(index)[1], instance.run(None))
        assert found == said, (name, export, said, found)
        charges = instance.charges
        whole = f"{said} charges {charges} depth {instance.deepest}"
        if charges > 1 and chance.random() < 0.5:
            first = chance.randrange(charges)
            yield f"call {export} fuel {first} -> fuel charges {first}"
            yield f"more {charges - first} -> {whole}"
        else:
            yield f"call {export} -> {whole}"


if __name__ == "__main__":
    seed, count = int(sys.argv[1]), int(sys.argv[2])
    with tempfile.TemporaryDirectory() as folder:
        for place in range(count):
            for line in lines_of(f"seed_{seed + place}", random.Random(seed + place), folder):
                print(line)
