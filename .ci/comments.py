#!/usr/bin/env python3
"""Public functions whose doc comment doesn't begin with a verb in the third person, as those of the standard library do, or that
have none."""
import pathlib, re, sys

FUNCTION = re.compile(r"\s*pub (?:(?:const|unsafe|extern \"C\") )*fn (\w+)")
VERB = re.compile(r"/// ([A-Z][a-z]+s)\b(?!')")
# Words that look like one, and aren't used so.
OTHERS = set("""
    Always As Books Bytes Cases Charges Configurations Else Examples Frames Instances Is Its Less Lines Numbers Others Pages Plus Slots
    Tables This Threads Thus Turns Various Was Words Zeros
""".split())
ROOT = pathlib.Path(__file__).resolve().parents[1]
found = 0
for path in sorted(ROOT.glob("crates/*/src/**/*.rt")):
    lines = path.read_text().splitlines()
    for at, line in enumerate(lines):
        if function := FUNCTION.match(line):
            first = at
            while first and re.match(r"\s*(//(?!!)|#\[)", lines[first - 1]):
                first -= 1
            verb = VERB.match(lines[first].lstrip())
            if not verb or verb[1] in OTHERS:
                print(f"{path.relative_to(ROOT)}:{at + 1}: {function[1]}")
                found += 1
sys.exit(1 if found else 0)
