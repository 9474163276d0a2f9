#!/usr/bin/env python3
"""Brings wasmhost modules that are cut behind every byte, and whose every byte is 00, 7F, 80 or FF in turn: those of the scripts here,
and a hundred random ones with every section. `python3 .ci/hostile/cuts.py [PROGRAM]`, after `rt run` or `rt ci` made
crates/wasmhost/out/wasmhost.

Each reply is compared with what a second decoder says of the bytes, which was written apart from the first
(crates/test_decode/modules/reference.py): the fault and its offset, or none; then the reply names no fault of the bytes."""
import collections, concurrent.futures, importlib.util, os, random, re, subprocess, sys

from scripts import MODULES, ROOT

# Another module that is called `reference` is on the path: the second machine, which the second model of scripts runs.
found = importlib.util.spec_from_file_location("decoder", ROOT + "/crates/test_decode/modules/reference.py")
decoder = importlib.util.module_from_spec(found)
found.loader.exec_module(decoder)
sys.path.insert(0, ROOT + "/crates/test_machine/programs")
from wasm import signed, unsigned, vector

HEAD = "0061736d01000000"
SEVEN = HEAD + "0105016000017f" + "03020100" + "07050101660000"
# Modules that are broken, or spelled in an unusual way: sections out of order, code with longer numbers than it needs, one too long,
# a float, a section that ends early, an imported memory, types without end, locals without end.
ODD = [
    HEAD + "030100010100",
    SEVEN + "0a070105004187000b",
    SEVEN + "0a0a01080041ffffffff0f0b",
    HEAD + "0105016000017d" + "03020100" + "07050101660000" + "0a0601040041070b",
    HEAD + "010200",
    HEAD + "0208010161016202" + "0001",
    HEAD + "0105ffffffff0f",
    SEVEN + "0a0c010a01ffffffff0f7f41070b",
]
BYTES = (0x00, 0x7F, 0x80, 0xFF)
BATCH = 1000
WANTED = [f"D{number}" for number in range(1, 13)] + ["none"]


def name(text):
    return vector([bytes([byte]) for byte in text.encode()])


def section(number, contents):
    return bytes([number]) + unsigned(len(contents)) + contents


def func_type(chance):
    kinds = [bytes([chance.choice((0x7F, 0x7E))]) for _ in range(chance.randrange(4))]
    return b"\x60" + vector(kinds[1:]) + vector(kinds[:1])


def limits(chance):
    least = chance.randrange(1, 4)
    return b"\0" + unsigned(least) if chance.random() < 0.5 else b"\1" + unsigned(least) + unsigned(least + chance.randrange(300))


def instruction(chance):
    """An instruction with its immediates; constructs are closed at once."""
    index = unsigned(chance.choice((0, 1, 2, 127, 128, 300)))
    return chance.choice(
        (
            bytes([chance.choice((0x00, 0x01, 0x0F, 0x1A, 0x1B, 0x45, 0x5A, 0x6A, 0x8A, 0xA7, 0xC0, 0xC4))]),
            bytes([chance.choice((0x0C, 0x0D, 0x10, 0x20, 0x22, 0x23))]) + index,
            bytes([chance.choice((0x28, 0x2C, 0x35, 0x36, 0x3E))]) + unsigned(chance.randrange(4)) + index,
            b"\x41" + signed(chance.randrange(-(1 << 31), 1 << 31)),
            b"\x42" + signed(chance.randrange(-(1 << 63), 1 << 63)),
            b"\x0e" + vector([unsigned(chance.randrange(200)) for _ in range(3)]) + index,
            b"\x11" + index + b"\0",
            bytes([chance.choice((0x3F, 0x40)), 0]),
            bytes([chance.choice((0x02, 0x03)), chance.choice((0x40, 0x7F, 0x7E))]) + b"\x01\x0b",
            b"\x04\x40\x01\x05\x01\x0b",
        )
    )


def body(chance):
    groups = [unsigned(chance.randrange(4)) + bytes([chance.choice((0x7F, 0x7E))]) for _ in range(chance.randrange(3))]
    code = vector(groups) + b"".join(instruction(chance) for _ in range(chance.randrange(8))) + b"\x0b"
    return unsigned(len(code)) + code


def random_module(chance):
    """A module with every section, of whose bytes each means something. It need not be valid."""
    types, count = [func_type(chance) for _ in range(3)], chance.randrange(1, 4)
    constant = b"\x41" + signed(chance.randrange(100)) + b"\x0b"
    imports = [name("host") + name("input") + b"\0" + unsigned(chance.randrange(3)), name("host") + name("base") + b"\3\x7f\0"]
    contents = [
        (1, vector(types)),
        (2, vector(imports)),
        (3, vector([unsigned(chance.randrange(3)) for _ in range(count)])),
        (4, vector([b"\x70" + limits(chance)])),
        (5, vector([limits(chance)])),
        (6, vector([bytes([0x7F, chance.randrange(2)]) + constant])),
        (7, vector([name(text) + bytes([kind, 0]) for kind, text in enumerate(("run", "tab", "m\u00e9m", "glob"))])),
        (8, unsigned(chance.randrange(count + 1))),
        (9, vector([b"\0" + constant + vector([unsigned(1)])])),
        (10, vector([body(chance) for _ in range(count)])),
        (11, vector([b"\0" + constant + name("data")])),
    ]
    custom = section(0, name("note") + bytes(chance.randrange(256) for _ in range(4)))
    return bytes.fromhex("0061736d01000000") + custom + b"".join(section(number, what) for number, what in contents)


def changed(module):
    """The module cut behind every byte, itself among them, and with each byte as another."""
    for length in range(1, len(module) + 1):
        yield module[:length]
    for at, byte in enumerate(module):
        for other in BYTES:
            if other != byte:
                yield module[:at] + bytes([other]) + module[at + 1 :]


def batches(modules):
    batch = []
    for module in modules:
        for other in changed(module):
            batch.append(other)
            if len(batch) == BATCH:
                yield batch
                batch = []
    yield batch


def replies(program, batch):
    """What the program answers to these modules, one after the other."""
    script = "".join(f"module m{at} {module.hex()}\n" for at, module in enumerate(batch))
    ran = subprocess.run([program], input=script.encode(), capture_output=True, timeout=120)
    if (ran.returncode, ran.stderr) != (0, b""):
        sys.exit(f"the program ended with {ran.returncode}, {ran.stderr}")
    return ran.stdout.decode().splitlines()


def compare(batch, lines):
    """Compares the replies to a batch with the second decoder's answers. Answers a count by faults."""
    kinds = collections.Counter()
    if len(lines) != len(batch):
        sys.exit(f"{len(lines)} replies to {len(batch)} modules")
    for at, (module, line) in enumerate(zip(batch, lines)):
        found = re.fullmatch(f"module m{at} (?:refused (D\\d+) at (\\d+)|.*)", line)
        said, wanted = found and (f"{found[1]} {found[2]}" if found[1] else "ok"), decoder.answer(module)
        if said != wanted:
            sys.exit(f"{module.hex()}: {line} in place of {wanted}")
        kinds[found[1] or "none"] += 1
    return kinds


def main():
    program = os.path.abspath(sys.argv[1] if len(sys.argv) > 1 else ROOT + "/crates/wasmhost/out/wasmhost")
    chance = random.Random(1)
    randoms = [random_module(chance) for _ in range(100)]
    modules = [bytes.fromhex(digits) for digits in [text for text, _ in MODULES.values()] + ODD] + randoms
    whole = [decoder.answer(module) for module in randoms]
    if whole != ["ok"] * 100:
        sys.exit(f"a random module breaks: {whole}")
    kinds = collections.Counter()
    with concurrent.futures.ThreadPoolExecutor(os.cpu_count()) as pool:
        all_batches = list(batches(modules))
        for batch, lines in zip(all_batches, pool.map(lambda batch: replies(program, batch), all_batches)):
            kinds += compare(batch, lines)
    print(f"{kinds.total()} modules that were cut or changed, of {len(modules)}: " + ", ".join(f"{kinds[kind]} {kind}" for kind in WANTED))
    lacking = [kind for kind in WANTED if not kinds[kind]]
    if lacking:
        sys.exit(f"faults that never came: {', '.join(lacking)}")


main()
