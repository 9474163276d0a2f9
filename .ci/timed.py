#!/usr/bin/env python3
"""Runs commands, between which `--` stands, one after the other as long as each goes well, and passes on what they print. The last
line of the first one comes last of all, behind how many minutes all took, on how many processors, and how many minutes of
processor time. Where a later command fails that line doesn't come."""
import itertools
import os
import resource
import subprocess
import sys
import time


def run(words):
    """Runs a command. Answers its status, and the last line that it printed, which isn't passed on."""
    held = None
    at_once = {**os.environ, "PYTHONUNBUFFERED": "1"}
    with subprocess.Popen(words, stdout=subprocess.PIPE, env=at_once) as ran:
        for line in ran.stdout:
            show(held)
            held = line
    return (ran.returncode if ran.returncode >= 0 else 1), held


def show(line):
    if line is not None:
        sys.stdout.buffer.write(line)
        sys.stdout.buffer.flush()


began = time.monotonic()
first, *others = [list(words) for ends, words in itertools.groupby(sys.argv[1:], "--".__eq__) if not ends]
status, last = run(first)
for words in others:
    if status == 0:
        status, line = run(words)
        show(line)
        last = last if status == 0 else None
minutes = (time.monotonic() - began) / 60
used = resource.getrusage(resource.RUSAGE_CHILDREN)
worked = (used.ru_utime + used.ru_stime) / 60
print(f"{minutes:.0f} minutes on {len(os.sched_getaffinity(0))} processors, {worked:.0f} of processor time", flush=True)
show(last)
sys.exit(status)
