#!/usr/bin/env python3
"""Refuses a script's theorem that doesn't stand alone: what `Runs` and `FailingRuns` of wh_script reach by their imports are at most
40 files of definitions each, none of which speaks of the host or of its memory (wh_host_model/specs/Host, and wh_space_model/specs
but for the faults of a swap device)."""
import pathlib
import re
import sys

ROOT = pathlib.Path(__file__).resolve().parent.parent / "crates"
MOST = 40
OF_THE_HOST = re.compile(r"wh_host_model/specs/Host\b|wh_space_model/specs/(?!SwapFaults\b)")


def imports(path):
    """The files of our own definitions that this one names; the toolchain's, and what is made from the code, are none."""
    for crate, module in re.findall(r"^use Rattle\.(\w+)\.specs\.([\w.]+?)(?:\.\{| as |$)", path.read_text(), re.M):
        found = ROOT / crate / "specs" / (module.replace(".", "/") + ".antt")
        if found.exists():
            yield found


def reached_from(name):
    """The files that this definition's file reaches, with its own."""
    reached, left = set(), [ROOT / "wh_script/specs" / name]
    while left:
        path = left.pop()
        if path not in reached:
            reached.add(path)
            left += imports(path)
    return reached


for name in ["Runs.antt", "FailingRuns.antt"]:
    reached = reached_from(name)
    host = sorted(str(path.relative_to(ROOT)) for path in reached if OF_THE_HOST.search(str(path)))
    if host or len(reached) > MOST:
        sys.exit(f"the theorem of scripts reaches {len(reached)} files from {name}, of the host: {', '.join(host) or 'none'}")
    lines = sum(len(path.read_text().splitlines()) for path in reached)
    print(f"the theorem of scripts stands on {len(reached)} files of {lines} lines, from {name}")
