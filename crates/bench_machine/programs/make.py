#!/usr/bin/env python3
"""Builds the programs and writes table.txt: each module, and what its `run` gives, with its charges. README.md says how."""
import os, sys, tempfile

HERE = os.path.dirname(os.path.abspath(__file__))
CASES = os.path.join(HERE, "../../test_machine/programs")
sys.path.insert(0, CASES)
import make, reference
from wasm import *

# What TIMES stands for, at full scale and at the scale at which a second machine counts the charges too.
SCALES = {
    "loop.wat": (10_000_000, 10_000), "fib.wat": (33, 15), "sha256.c": (180, 1), "sieve.c": (50, 1), "matrix.c": (30, 1),
    "dispatch.c": (2_500, 100),
}


def built(source, times, folder):
    if source.endswith(".c"):
        return make.built(os.path.join(HERE, source), folder, f"-I{CASES}", f"-DTIMES={times}")
    data = make.row_module(open(os.path.join(HERE, source)).read().replace("TIMES", str(times)), folder)
    return make.validated(stripped(data), folder + "/program.wasm")


def counted(data, folder):
    """The result and the charges, by wasm-interp on the module with counters."""
    found = make.interpreted(with_calls(data, [("run", [])], True), folder + "/counted.wasm")
    return found["call0"], found["charges0"]


def main():
    lines = []
    with tempfile.TemporaryDirectory() as folder:
        for source, (times, few) in SCALES.items():
            small = built(source, few, folder)
            instance = reference.Instance(small)
            instance.begin(instance.module.exported("run"), [])
            _, word = instance.run(None)
            assert (word, instance.charges) == counted(small, folder), (source, word, instance.charges)
            data = built(source, times, folder)
            word, charges = counted(data, folder)
            assert word == make.interpreted(with_calls(data, [("run", [])]), folder + "/calls.wasm")["call0"]
            name, module = source.split(".")[0], Module(data)
            kind = NAMES[module.type_of(module.exported("run"))[1][0]]
            lines += [f"module {name} {data.hex()}", f"call run -> {kind} {word} charges {charges}"]
            print(f"{source}: {len(data)} bytes, charges {charges}; at scale {few}: {instance.charges}", flush=True)
    make.write(os.path.join(HERE, "table.txt"), lines)


if __name__ == "__main__":
    main()
