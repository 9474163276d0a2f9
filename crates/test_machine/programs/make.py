#!/usr/bin/env python3
"""Builds the programs and writes the tables in ../data and ../stdout. README.md says how, and with which tools."""
import glob, os, re, subprocess, sys, tempfile

from wasm import *

MOST_CHARGES, MOST_DEPTH, MOST_PAGES = 3_000_000, 128, 32
COMPILE = (
    "clang --target=wasm32 -mcpu=mvp -O2 -std=gnu11 -Wall -Wextra -Wno-gnu -ffreestanding -fno-builtin -nostdlib "
    f"-Wl,--no-entry,--strip-all,--stack-first,-z,stack-size=8192,--max-memory={65536 * MOST_PAGES}"
).split()
NATIVE = [
    "clang -O1 -std=gnu11 -fno-builtin -fsanitize=undefined,address -fno-sanitize-recover=all".split(),
    "gcc -O2 -std=gnu11 -fno-builtin".split(),
]
LATER = [
    "--disable-" + name
    for name in "mutable-globals saturating-float-to-int simd multi-value bulk-memory reference-types".split()
]
C_TYPES = {I32: "u32", I64: "u64"}


def run(*command):
    done = subprocess.run(command, capture_output=True, text=True)
    assert done.returncode == 0, (command, done.stdout, done.stderr)
    return done.stdout


def validated(data, path):
    with open(path, "wb") as file:
        file.write(data)
    run("wasm-validate", *LATER, path)
    return data


def interpreted(data, path):
    """What wasm-interp prints of each export, by name."""
    with open(path, "wb") as file:
        file.write(data)
    out = {}
    for line in run("wasm-interp", *LATER, path, "--run-all-exports").splitlines():
        name, word = re.fullmatch(r"(\w+)\(\) => i(?:32|64):(\d+)", line).groups()
        out[name] = int(word)
    return out


def calls_of(source, module):
    out = []
    for line in re.findall(r"^call (.*)$", open(source).read(), re.M):
        export, *words = line.split()
        params, _ = module.type_of(module.exported(export))
        out.append((export, [int(word) % (1 << BITS[kind]) for kind, word in zip(params, words, strict=True)]))
    return out


def native(source, module, calls, folder):
    """What builds for the machine at hand print, one number a call."""
    lines, declared = [], set()
    for export, words in calls:
        params, results = module.type_of(module.exported(export))
        given = ", ".join(C_TYPES[kind] for kind in params) or "void"
        declared.add(f"extern {C_TYPES[results[0]]} {export}({given});")
        lines.append(f'printf("%llu\\n", (u64){export}({", ".join(f"{word}ull" for word in words)}));')
    head = ['#include "program.h"', "#include <stdio.h>", *sorted(declared), "int main(void) {"]
    with open(folder + "/main.c", "w") as file:
        file.write("\n".join([*head, *lines, "}"]))
    out = []
    for compiler in NATIVE:
        run(*compiler, "-I.", "-o", folder + "/native", folder + "/main.c", source)
        out.append([int(line) for line in run(folder + "/native").split()])
    return out


def built(source, folder, *more):
    path = folder + "/program.wasm"
    run(*COMPILE, *more, "-o", path, source)
    with open(path, "rb") as file:
        data = stripped(file.read())
    return validated(data, path)


def program(source, folder):
    """The lines of a program for the table and for the charges."""
    name, data = source[:-2], built(source, folder)
    module = Module(data)
    calls = calls_of(source, module)
    assert {export for export, _ in calls} == {found for found, kind, _ in module.exports if kind == 0}, name
    found = interpreted(with_calls(data, calls), folder + "/calls.wasm")
    counted = interpreted(with_calls(data, calls, True), folder + "/counted.wasm")
    for results in native(source, module, calls, folder):
        assert results == [found[f"call{place}"] for place in range(len(calls))], (name, results, found)
    table, charges = [f"module {name} {data.hex()}"], [f"module {name}"]
    for place, (export, words) in enumerate(calls):
        word, count, depth = [counted[f"{kind}{place}"] for kind in ("call", "charges", "depth")]
        assert word == found[f"call{place}"], (name, export, word)
        assert count <= MOST_CHARGES and depth + 1 < MOST_DEPTH, (name, export, count, depth)
        kind = NAMES[module.type_of(module.exported(export))[1][0]]
        line = f"{' '.join(['call', export, *map(str, words)])} -> {kind} {word}"
        table.append(line)
        charges.append(f"{line} charges {count} depth {depth + 1}")
    return table, charges


def row_module(text, folder):
    """A module's bytes, from bytes or from the text format."""
    if re.fullmatch("[0-9A-F ]*", text):
        return bytes.fromhex(text)
    with open(folder + "/row.wat", "w") as file:
        file.write(text)
    run("wat2wasm", *LATER, folder + "/row.wat", "-o", folder + "/row.wasm")
    with open(folder + "/row.wasm", "rb") as file:
        return file.read()


def rows(folder):
    """The lines of rows.txt: those of rows.source.txt, with the bytes of each module in its line."""
    lines = open("rows.source.txt").read().split("\n")[:-1]
    while lines:
        line = lines.pop(0)
        if line.startswith("module "):
            _, name, *refused = line.split(" ", 2)
            text = []
            while lines and lines[0].startswith("  "):
                text.append(lines.pop(0).strip())
            data = row_module(" ".join(text), folder)
            if not refused:
                validated(data, folder + "/row.wasm")
            line = " ".join(["module", name, data.hex(), *refused])
        yield line


def write(path, lines):
    with open(path, "w") as file:
        file.write("".join(line + "\n" for line in lines))


def agreed(paths):
    """What our own program prints about tables when it agrees with them: how many expectations each module has, and sums."""
    lines, modules, total = [], set(), 0
    for path in paths:
        lines.append(f"{path}:")
        counts = {}
        for words in map(str.split, open("../data/" + path)):
            if not words or words[0].startswith("#"):
                continue
            if words[0] == "module":
                name = words[1]
                modules.add(name)
                counts[name] = 0
            counts[name] += "->" in words or words[0] == "output"
        lines += [f"{name}: {count} agree, 0 differ" for name, count in counts.items()]
        total += sum(counts.values())
    return [*lines, "one call of a module: 5 agree", f"{len(paths)} tables, {len(modules)} modules: {total} agree, 0 differ"]


def main():
    os.chdir(os.path.dirname(os.path.abspath(__file__)))
    table, charges = [], []
    with tempfile.TemporaryDirectory() as folder:
        for source in sys.argv[1:] or sorted(glob.glob("*.c")):
            one, two = program(source, folder)
            table += one
            charges += two
            print("\n".join([f"{source}: {(len(one[0]) - len(source) - 5) // 2} bytes", *("  " + line for line in two[1:])]))
        if len(sys.argv) == 1:
            write("../data/table.txt", table)
            write("../data/charges.txt", charges)
            write("../data/rows.txt", rows(folder))
            write("../data/random.txt", run(sys.executable, "generate.py", "300", "64").splitlines())
            write("../stdout", agreed(["table.txt", "charges.txt", "rows.txt", "random.txt"]))


if __name__ == "__main__":
    main()
