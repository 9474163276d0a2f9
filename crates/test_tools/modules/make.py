#!/usr/bin/env python3
"""Writes ../stdin and ../stdout: modules of other tools, and what another validator says of them. README.md says how."""
import random, sys, tempfile
sys.dont_write_bytecode = True
from tools import HERE, is_valid, of_text, planted, text_of, whole, write

with tempfile.TemporaryDirectory() as room:
    modules = {name: module for name, module in whole(room).items() if is_valid(room, module)}
    kept = sorted(modules)
    choice = random.Random(1)
    parts = [("wabt", 29), ("clang", 23), ("binaryen", 24), ("random", 24)]
    chosen = [name for tool, number in parts for name in choice.sample([it for it in kept if it.startswith(tool)], number)]
    cases = [(name, modules[name], True) for name in chosen]
    seen = {modules[name] for name in chosen}
    while len(cases) < 200:
        name = choice.choice(chosen)
        module = of_text(room, planted(choice, text_of(room, modules[name])), "--no-check")
        if module and module not in seen and not is_valid(room, module):
            seen.add(module)
            cases.append((f"planted_{len(cases) - 100}_{name}", module, False))
    write(f"{HERE}/../stdin", "".join(f"{name} {module.hex()}\n" for name, module, _ in cases).encode())
    write(f"{HERE}/../stdout", "".join(f"{name} {'valid' if valid else 'invalid'}\n" for name, _, valid in cases).encode())
