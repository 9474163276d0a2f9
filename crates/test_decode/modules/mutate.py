#!/usr/bin/env python3
"""Changes the modules of ../stdin at random, and runs the program on them with what reference.py answers:
`python3 mutate.py SEED NUMBER`, after `rt run` made ../out/test_decode."""
import os, random, subprocess, sys, tempfile

import reference

LIKELY = bytes.fromhex("000102030405070b0e0f1011183f40414243606f707c7d7e7f8081ff")


def changed(module):
    module = bytearray(module)
    for _ in range(random.choice((1, 1, 1, 2, 3))):
        low = 8 if len(module) > 8 and random.random() < 0.97 else 0
        if len(module) <= low:
            break
        at, way = random.randrange(low, len(module)), random.random()
        if way < 0.5:
            module[at] = random.choice(LIKELY)
        elif way < 0.65:
            module[at] = random.randrange(256)
        elif way < 0.75:
            module[at] = (module[at] + random.choice((1, 255))) % 256
        elif way < 0.85:
            del module[at]
        elif way < 0.95:
            module.insert(at, random.choice(LIKELY))
        else:
            del module[at:]
    return bytes(module)


def modules():
    for line in open("../stdin"):
        if line.count("|") == 2 and "*" not in line and ".." not in line:
            yield bytes.fromhex(line.split("|")[2].replace(" ", ""))


os.chdir(os.path.dirname(os.path.abspath(__file__)))
random.seed(int(sys.argv[1]))
found = list(modules())
with tempfile.TemporaryFile("w+") as cases:
    for index in range(int(sys.argv[2])):
        module = changed(random.choice(found))
        cases.write(f"{index} {module.hex()} | {reference.answer(module)} | {module.hex()}\n")
    cases.seek(0)
    subprocess.run(["../out/test_decode"], stdin=cases)
