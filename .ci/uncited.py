#!/usr/bin/env python3
"""Lemmas of proofs/ that nobody cites: no other lemma, definition or source names them. The prover itself asks for what stands in a
file of a function's answers, and examples are there to be read: neither is looked at."""
import collections
import pathlib
import re
import sys

ROOT = pathlib.Path(__file__).resolve().parent.parent
ASKED_FOR = re.compile(r"(Answers|Invariants|Proof|Worked\w*|Typed|Heights)\.antt$")
WORD = re.compile(r"[^\s(){}\[\];,.`:]+")
LEMMA = re.compile(r"^(?:pub )?([^\s:(){}]+) :", re.M)


def code(text):
    return "\n".join(line for line in text.split("\n") if not line.lstrip().startswith(("--", "//")))


texts = {path: code(path.read_text()) for part in ("src", "specs", "proofs") for path in ROOT.glob(f"crates/*/{part}/**/*.*")}
named = collections.Counter(word for text in texts.values() for word in set(WORD.findall(text)))
found = 0
for path, text in sorted(texts.items()):
    if "proofs" not in path.parts or ASKED_FOR.search(path.name):
        continue
    here = collections.Counter(WORD.findall(text))
    for part in re.split(r"\n\n+", text):
        lemmas = [] if part.startswith("use ") else LEMMA.findall(part)
        within = collections.Counter(WORD.findall(part))
        if lemmas and all(named[lemma] == 1 and here[lemma] == within[lemma] for lemma in lemmas):
            print(f"{path.relative_to(ROOT)}: {', '.join(lemmas)}")
            found += 1
sys.exit(1 if found else 0)
