#!/usr/bin/env python3
"""Writes modules that are dear to check into a folder: worst.py FOLDER.

Each is below the limit of 1048576 bytes of a module, and is valid but where its name says otherwise."""
import os
import sys

MOST_BYTES = 1048576
MOST_INSTRUCTIONS = 65536
I32, I64 = 0x7F, 0x7E
BLOCK, LOOP, IF, END, BR_IF, BR_TABLE, CALL = 0x02, 0x03, 0x04, 0x0B, 0x0D, 0x0E, 0x10
CONST, DROP, UNREACHABLE, NOP, EMPTY = 0x41, 0x1A, 0x00, 0x01, 0x40


def number(n):
    out = []
    while True:
        low, n = n & 127, n >> 7
        out.append(low | (128 if n else 0))
        if not n:
            return bytes(out)


def sized(data):
    return number(len(data)) + data


def section(code, items):
    return bytes([code]) + sized(number(len(items)) + b"".join(items))


def func_type(params, results):
    return b"\x60" + sized(bytes(params)) + sized(bytes(results))


def module(types, funcs, bodies, exports=()):
    data = b"\0asm\1\0\0\0" + section(1, types) + section(3, [number(f) for f in funcs])
    if exports:
        data += section(7, exports)
    return data + section(10, [sized(b"\0" + b) for b in bodies])


def filled(types, of, body):
    """As many functions with this body as a module may have bytes for."""
    size = len(sized(b"\0" + body)) + 1
    count = min(4096, (MOST_BYTES - 2048) // size)
    while True:
        data = module(types, [of] * count, [body] * count)
        if len(data) <= MOST_BYTES:
            return data
        count -= 1


NOTHING = func_type([], [])


def nested(depth):
    """A body of 65536 instructions: blocks inside one another, and branches to each of them."""
    branches = (MOST_INSTRUCTIONS - 2 * depth - 1) // 2
    inner = b"".join(bytes([CONST, 0, BR_IF]) + number(k % depth) for k in range(branches))
    body = bytes([BLOCK, EMPTY]) * depth + inner + bytes([END]) * depth
    left = MOST_INSTRUCTIONS - 2 * depth - 2 * branches - 1
    return body + bytes([NOP]) * left + bytes([END])


def opened_again(depth):
    """A body of 65536 instructions that opens and closes as many constructs as it can, that deep."""
    once = bytes([BLOCK, EMPTY]) * depth + bytes([END]) * depth
    rounds, left = divmod(MOST_INSTRUCTIONS - 1, 2 * depth)
    return once * rounds + bytes([NOP]) * left + bytes([END])


def choices():
    """A body of 65536 instructions, of ifs with an else."""
    once = bytes([CONST, 0, IF, EMPTY, 0x05, END])
    rounds, left = divmod(MOST_INSTRUCTIONS - 1, 4)
    return once * rounds + bytes([NOP]) * left + bytes([END])


def tables(labels, depth):
    """One br_table with so many labels, to blocks that deep."""
    run = b"".join(number(k % depth) for k in range(labels))
    return bytes([BLOCK, EMPTY]) * depth + bytes([CONST, 0, BR_TABLE]) + number(labels) + run + b"\0" + bytes([END]) * depth + bytes([END])


def dead_calls():
    """A body of 65536 instructions that aren't reached, calls with 256 parameters."""
    return bytes([UNREACHABLE]) + bytes([CALL, 0]) * (MOST_INSTRUCTIONS - 2) + bytes([END])


def live_calls():
    """A body of 65536 instructions, of calls with 256 parameters that are there."""
    once = bytes([CONST, 0]) * 256 + bytes([CALL, 0])
    rounds, left = divmod(MOST_INSTRUCTIONS - 1, 257)
    return once * rounds + bytes([NOP]) * left + bytes([END])


def operands(height):
    """A body of 65536 instructions that puts up 256 operands and takes them down."""
    once = bytes([CONST, 0]) * height + bytes([DROP]) * height
    rounds, left = divmod(MOST_INSTRUCTIONS - 1, 2 * height)
    return once * rounds + bytes([NOP]) * left + bytes([END])


def many_locals():
    """4096 functions with 256 locals each."""
    body = b"\x01" + number(256) + bytes([I64, END])
    return b"\0asm\1\0\0\0" + section(1, [NOTHING]) + section(3, [b"\0"] * 4096) + section(10, [sized(body)] * 4096)


def many_elements():
    """One element segment that fills the module."""
    data = b"\0asm\1\0\0\0" + section(1, [NOTHING]) + section(3, [b"\0"]) + section(4, [b"\x70\0\0"])
    data += section(9, [b"\0" + bytes([CONST, 0, END]) + number(1048000) + b"\0" * 1048000])
    return data + section(10, [sized(b"\0" + bytes([END]))])


def exports(count, length, same_front):
    """Exports with long names, which differ in their last or in their first bytes."""
    items = []
    for k in range(count):
        mark = b"%08d" % k
        rest = b"x" * (length - 8)
        items.append(sized(rest + mark if same_front else mark + rest) + b"\0\0")
    return module([NOTHING], [0], [bytes([END])], items)


def main():
    folder = sys.argv[1]
    os.makedirs(folder, exist_ok=True)
    wide = func_type([I32] * 256, [])
    written = {
        "nested-body": module([NOTHING], [0], [nested(256)]),
        "nested-module": filled([NOTHING], 0, nested(256)),
        "opened-body": module([NOTHING], [0], [opened_again(256)]),
        "opened-module": filled([NOTHING], 0, opened_again(256)),
        "choices-body": module([NOTHING], [0], [choices()]),
        "choices-module": filled([NOTHING], 0, choices()),
        "tables-module": filled([NOTHING], 0, tables(4096, 120)),
        "dead-calls-body": module([wide, NOTHING], [0, 1], [bytes([END]), dead_calls()]),
        "dead-calls-module": module([wide, NOTHING], [0] + [1] * 7, [bytes([END])] + [dead_calls()] * 7),
        "live-calls-body": module([wide, NOTHING], [0, 1], [bytes([END]), live_calls()]),
        "live-calls-module": module([wide, NOTHING], [0] + [1] * 7, [bytes([END])] + [live_calls()] * 7),
        "operands-body": module([NOTHING], [0], [operands(256)]),
        "operands-module": filled([NOTHING], 0, operands(256)),
        "exports-same-front": exports(1024, 1010, True),
        "exports-same-end": exports(1024, 1010, False),
        "locals-module": many_locals(),
        "elements-module": many_elements(),
        "functions-module": module([NOTHING], [0] * 4096, [bytes([END])] * 4096),
        "refused-at-its-end": module([NOTHING], [0], [bytes([NOP]) * (MOST_INSTRUCTIONS - 2) + bytes([DROP, END])]),
    }
    for name, data in written.items():
        if len(data) > MOST_BYTES:
            raise SystemExit(f"{name}: {len(data)} bytes")
        with open(os.path.join(folder, name + ".wasm"), "wb") as file:
            file.write(data)


main()
