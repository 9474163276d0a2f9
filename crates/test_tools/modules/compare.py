#!/usr/bin/env python3
"""Changes modules at random, so many times, and compares the program with another validator: python3 compare.py SEED NUMBER."""
import random, sys, tempfile
sys.dont_write_bytecode = True
from tools import HERE, is_valid, of_text, planted, run, text_of, whole

choice, number = random.Random(int(sys.argv[1])), int(sys.argv[2])
with tempfile.TemporaryDirectory() as room:
    texts = [text_of(room, module) for module in whole(room).values()]
    modules, wanted = [], []
    while len(modules) < number:
        text = choice.choice(texts)
        for _ in range(choice.choice([1, 1, 2, 3])):
            text = planted(choice, text)
        module = of_text(room, text, "--no-check")
        if module:
            modules.append(module)
            wanted.append("valid" if is_valid(room, module) else "invalid")
    given = "".join(f"{k} {module.hex()}\n" for k, module in enumerate(modules)).encode()
    got = run(f"{HERE}/../out/test_tools", given=given).stdout.decode().split("\n")[:-1]
    assert len(got) == number, len(got)
    for k, line in enumerate(got):
        assert line == f"{k} {wanted[k]}", (line, wanted[k], modules[k].hex())
print(f"{number} modules, {wanted.count('valid')} of them valid: no difference")
