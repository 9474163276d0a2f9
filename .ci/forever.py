#!/usr/bin/env python3
"""Loops without an end: a function that never returns meets any contract. So each is listed here with what ends it, and one with an
empty body, which would only stand in place of a proof, is refused."""
import pathlib
import re
import sys

ROOT = pathlib.Path(__file__).resolve().parents[1]
LOOP = re.compile(r"^( *)for _ in [\w.]+\.forever\(\) \{(.*)$", re.M)
# By file: how many such loops it has, and what ends them.
ENDS = {
    "wh_cell/src/cell.rt": (1, "the last other handle of the cell is dropped"),
    "wh_engine/src/running.rt": (1, "no call can go on, or a thread is refused"),
    "wh_live/src/live_supply.rt": (1, "the host is to stop, or a turn is due"),
    "wh_scheduler/src/jobs.rt": (2, "a turn is due, or no instance can go on; each instance had its look"),
    "wh_scheduler/src/turn_lock.rt": (1, "all who asked for the turn lock before have released it"),
    "wh_threads/src/help.rt": (1, "the helper is told to stop, has counted what is wanted, or comes to its end"),
    "wh_threads/src/work.rt": (1, "the last sign is received, or no sender is left"),
    "wh_workers/src/feed.rt": (1, "the supply says that no turn comes, or no worker is left"),
}

wrong = 0
for path in sorted(ROOT.glob("crates/*/src/**/*.rt")):
    name = str(path.relative_to(ROOT / "crates"))
    text = path.read_text()
    found = list(LOOP.finditer(text))
    for loop in found:
        behind = text[loop.end() :].lstrip()
        if loop.group(2).strip() == "}" or (not loop.group(2).strip() and behind.startswith("}")):
            print(f"{name}: a loop without an end and with nothing in it")
            wrong += 1
    if found and not name.startswith("test_") and len(found) != ENDS.get(name, (0, ""))[0]:
        print(f"{name}: {len(found)} loops without an end; .ci/forever.py lists {ENDS.get(name, (0, ''))[0]}")
        wrong += 1
sys.exit(1 if wrong else 0)
