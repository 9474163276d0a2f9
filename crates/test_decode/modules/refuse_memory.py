#!/usr/bin/env python3
"""Runs the program with one request for memory refused, for each of its requests in turn: `python3 refuse_memory.py`, after
`rt run` made ../out/test_decode. It needs a C compiler, and fails where a run answers otherwise than without a refusal."""
import os, subprocess, tempfile

PROGRAM = os.path.abspath(os.path.join(os.path.dirname(os.path.abspath(__file__)), "../out/test_decode"))
FEW = 20


def cases():
    """The modules of other tools, and some of the others."""
    few = 0
    for line in open("../stdin"):
        parts = line.split("|")
        if len(parts) != 3 or "*" in line or ".." in line or parts[1].startswith(" cuts"):
            continue
        few += parts[1] != " show "
        if parts[1] == " show " or few <= FEW:
            yield line


def run(text, **more):
    return subprocess.run([PROGRAM], input=text, capture_output=True, env={**os.environ, **more}, timeout=60)


os.chdir(os.path.dirname(os.path.abspath(__file__)))
text = "".join(cases()).encode()
whole = run(text)
assert whole.returncode == 0, whole.stderr
with tempfile.TemporaryDirectory() as folder:
    library, mark = folder + "/refuse_memory.so", folder + "/refused"
    subprocess.run(["cc", "-shared", "-fPIC", "-O1", "-o", library, "refuse_memory.c"], check=True)
    requests = in_decode = spared = 0
    while True:
        refused = run(text, LD_PRELOAD=library, REFUSE_AT=str(requests + 1), REFUSED=mark)
        if not os.path.exists(mark):
            break
        os.remove(mark)
        requests += 1
        in_decode += b"memory was refused" in refused.stderr
        # A list that isn't reserved grows: where only the reservation was refused, nothing differs.
        assert refused.returncode == 1 or refused.stdout == whole.stdout, requests
        assert whole.stdout.startswith(refused.stdout), requests
        spared += refused.returncode == 0
    assert requests > 0 and refused.returncode == 0 and refused.stdout == whole.stdout, requests
print(f"{requests} requests for memory refused in turn, {in_decode} of them in decode, {spared} without effect; every answer given was right")
