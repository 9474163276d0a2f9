#!/usr/bin/env python3
"""Says whether the guide's pages show the programs that are built and run."""
import pathlib
import sys

root = pathlib.Path(__file__).resolve().parent.parent
shown = [
    ("docs/guide/embedding.md", "crates/example_embedding/src/main.rt", "rust"),
    ("docs/guide/compiling-c.md", "examples/hello.c", "c"),
    ("docs/guide/compiling-libc.md", "examples/libc/sort.c", "c"),
    ("docs/guide/compiling-rust.md", "examples/rust/words.rs", "rust"),
    ("docs/guide/compiling-cpp.md", "examples/cpp/shapes.cpp", "cpp"),
]
printed = [("docs/guide/library.md", f"examples/library/{name}.stdout") for name in ("hello", "warm")]
others = [
    (page, program)
    for page, program, language in shown
    if f"```{language}\n{(root / program).read_text()}```" not in (root / page).read_text()
]
others += [
    (page, output)
    for page, output in printed
    if "".join("    " + line + "\n" for line in (root / output).read_text().splitlines()) not in (root / page).read_text()
]
for page, program in others:
    print(f"{page} has another program than {program}")
sys.exit(1 if others else 0)
