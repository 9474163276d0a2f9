#!/usr/bin/env python3
"""Runs wasmhost over scripts where it can have no more threads than so many, for each number from 1 to 8, its first thread among
them: `python3 .ci/hostile/threads.py [PROGRAM]`, after `rt run` or `rt ci` made crates/wasmhost/out/wasmhost. It says on standard
error where a thread was refused, and nothing where it can have one for each worker, the scanner and the reclaimer beside its own.

What has to come is worked out by the second model of scripts (crates/test_sessions/model): all replies, whatever the number; and
on standard error nothing, or that threads were refused.
As root each run has a user of its own, since the system counts the threads of a user; else all numbers are as 1, because this
user has other processes."""
import collections, concurrent.futures, os, resource, shutil, subprocess, sys, tempfile, threading, time

from scripts import CASES, HEAD, MODULES, REFUSED_THREADS, ROOT, Case, answers, digits, told

MOST = 8
FIRST_USER = 61000
# `f n` stores n to 1 at the beginnings of these pages of 4096 bytes; `l n` loads what stands at the beginning of that page.
MODULES["walk"] = (
    HEAD
    + "010a0260017f0060017f017f0303020001050301000107090201660000016c0001"
    + "0a2502180003402000410c7420003a0000200041016b22000d000b0b0a002000410c742d00000b",
    "ok",
)
START = "module m {walk}\n" + "".join(f"admit {name} m 100 2 16 0 0 0\n" for name in "abcd")
ALL_WALK = "".join(f"invoke {name} f 200 15\n" for name in "abcd")
ALL_LOAD = "".join(f"invoke {name} l 9 {page}\n" for page in (1, 8, 15) for name in "abcd")
LONG = [
    Case("turns enough for a scanner", {"quantum": 1}, 4, False, START + ALL_WALK + "scan\n" + ALL_LOAD + ALL_WALK + "report\n"),
    Case("steps that wait for frames", {"quantum": 1, "frames": 9, "slots": 64}, 4, False, START + ALL_WALK + ALL_LOAD + "scan\n" + ALL_LOAD),
    Case("pages in a file", {"quantum": 2, "frames": 9, "slots": 64, "swap": "pages"}, 4, False, START + ALL_WALK + ALL_LOAD + ALL_WALK),
    Case("calls that stop for fuel", {"quantum": 3, "frames": 9, "slots": 64}, 4, False, START + ALL_WALK.replace(" 200 ", " 60 ") + "refuel a 100\nrefuel c 7\ncancel d\n" + ALL_LOAD),
]


def as_nobody(user, threads):
    """What a run does before it begins: it may have so many threads."""
    if os.geteuid() == 0:
        os.setgroups([])
        os.setgid(user)
        os.setuid(user)
    resource.setrlimit(resource.RLIMIT_NPROC, (threads, threads))


def settings_of(case, quantum, own):
    """Writes the settings of a run, whose files begin with `own`."""
    given = {**case.settings, **quantum}
    with open(own + ".toml", "w") as file:
        for key, value in given.items():
            file.write(f"{key} = {value}\n" if isinstance(value, int) else f'{key} = "{own}.{value}"\n')
    return own + ".toml"


def run(program, folder, number, case, quantum, workers, threads):
    """Runs one script, which has to give all replies. Answers whether it says that threads were refused."""
    script = case.script.format(**digits())
    own = f"{folder}/{number}"
    os.mkdir(own)
    os.chmod(own, 0o777)
    words = [program, "--workers", str(workers), "--settings", settings_of(case, quantum, own + "/host")]
    ran = subprocess.run(
        words, input=script.encode(), capture_output=True, timeout=60, preexec_fn=lambda: as_nobody(FIRST_USER + number, threads)
    )
    said = ran.stderr in ((b"",) if threads >= workers + 3 else (REFUSED_THREADS,) if case is LONG[0] and threads == 1 else (b"", REFUSED_THREADS))
    if (ran.returncode, said, told(ran.stdout)) != (0, True, answers(case, script.splitlines())):
        sys.exit(f"{case.name}, {workers} workers, {threads} threads, {quantum}: {ran.returncode} {ran.stderr} {ran.stdout.decode()}")
    return ran.stderr != b""


def refuses(threads):
    """Whether who may have so many threads is refused one more."""
    child = os.fork()
    if child == 0:
        as_nobody(FIRST_USER - 1, threads)
        try:
            for _ in range(threads):
                threading.Thread(target=time.sleep, args=(9,), daemon=True).start()
        except RuntimeError:
            os._exit(0)
        os._exit(1)
    return os.waitpid(child, 0)[1] == 0


def main():
    program = os.path.abspath(sys.argv[1] if len(sys.argv) > 1 else ROOT + "/crates/wasmhost/out/wasmhost")
    assert all(refuses(threads) for threads in range(1, MOST + 1))
    ways = [(case, {}) for case in CASES + LONG] + [(case, {"quantum": 1}) for case in CASES]
    with tempfile.TemporaryDirectory() as folder, concurrent.futures.ThreadPoolExecutor(os.cpu_count()) as pool:
        os.chmod(folder, 0o755)
        copy = shutil.copy(program, folder + "/wasmhost")
        os.chmod(copy, 0o755)
        runs = [(way, workers, threads) for way in ways for workers in (1, 4) for threads in range(1, MOST + 1)]
        tried = [pool.submit(run, copy, folder, number, *way, workers, threads) for number, (way, workers, threads) in enumerate(runs)]
        refused = collections.Counter(of[2] for of, done in zip(runs, tried) if done.result())
    print(f"{len(runs)} runs with 1 to {MOST} threads: every reply was given")
    print("runs that were refused threads: " + ", ".join(f"{refused[threads]} of {threads}" for threads in range(1, MOST + 1)))
    if not refused[1]:
        sys.exit("no run says that threads were refused")


main()
