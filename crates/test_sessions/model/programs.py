"""Scripts that run the programs in C of `../../test_machine`. What a call gives and takes is what the tables there say, which
come from other engines; nothing here runs one."""
import os

TABLES = os.path.join(os.path.dirname(os.path.abspath(__file__)), "..", "..", "test_machine", "data")
CHOSEN = (
    "arena base64 bignum bits checksums cipher expression fixed huffman life matrix md5 paths puzzles queens random recursion"
    " sha256 tape tokens"
).split()
FRAMES = 512  # No memory of theirs is greater than 32 pages of 16 frames.
SETTINGS = {"whole": {"frames": 1024, "slots": 600}, "few": {"frames": 8, "slots": 600, "quantum": 777}}


def blocks(name):
    """The lines of a table by the modules that they speak of."""
    found = {}
    for line in open(os.path.join(TABLES, name)):
        if line.startswith("module "):
            module = line.split()[1]
            found[module] = []
        if line.strip() and not line.startswith("#"):
            found[module].append(line.split())
    return found


def signed(kind, word):
    bits = {"i32": 32, "i64": 64}[kind]
    return word - (word >> bits - 1 << bits)


def outcome(wanted):
    """How a call's line says what a table does: `done 7`, `done` or `trap T4`."""
    if wanted[0] in ("i32", "i64"):
        return f"done {signed(wanted[0], int(wanted[1]))}"
    return "done" if wanted[0] == "done" else f"trap {wanted[1]}"


def pieces(place, charges):
    """Fuel for a call: a first piece that isn't enough, and one or two more."""
    if place % 2 or charges < 3:
        return [charges - 1, 1]
    return [charges // 3, charges // 2, charges]


def call_lines(place, export, words, ending, charges):
    name = f"call {place + 1}"
    first, *others = pieces(place, charges)
    out = [" ".join([f">invoke a {export} {first}", *words])]
    for more in others:
        out += [f">refuel a {more}", f"<{name} fuel charges {first}", "<refuel a ok"]
        first += more
    return out + [">scan", f"<{name} {ending} charges {charges}", "<scan ok"]


def script(name, calls, has_data, settings):
    """The lines of a table for a program."""
    out = [f"script {name} {settings}", f">load p {name}", "<module p ok"]
    out += [f">admit a p 100 2 {FRAMES} 0 0 0", "<admit a ok 0", ">drain"]
    if has_data:
        out.append("<start a done charges 0")
    for place, (export, words, ending, charges) in enumerate(calls):
        out += call_lines(place, export, words, ending, charges)
    return out + [">release a", "<release a ok -"]


def has_data(code):
    """Whether a module without custom sections has a data section; none here has an empty one."""
    place = 8
    while place < len(code):
        number, size, shift = code[place], 0, 0
        place += 1
        while True:
            size |= (code[place] & 127) << shift
            shift += 7
            place += 1
            if code[place - 1] < 128:
                break
        if number == 11:
            return True
        place += size
    return False


def table():
    outcomes, charged, out = blocks("table.txt"), blocks("charges.txt"), []
    for place, name in enumerate(CHOSEN):
        (_, _, digits), *lines = outcomes[name]
        calls = []
        for line, counted in zip(lines, charged[name][1:], strict=True):
            arrow = line.index("->")
            assert line[:arrow] == counted[:arrow] and line[arrow + 1 :] == counted[arrow + 1 : arrow + len(line) - arrow]
            charges = int(counted[counted.index("charges") + 1])
            calls.append((line[1], line[2:arrow], outcome(line[arrow + 1 :]), charges))
        out += [f"file {name} {digits}"]
        out += script(name, calls, has_data(bytes.fromhex(digits)), ("whole", "few")[place % 2])
    return out
