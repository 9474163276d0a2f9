#!/usr/bin/env python3
"""Runs wasmhost over random scripts whose pages are swapped to a file, while reads, writes and seeks of that file fail: one, or some in
a row, so that a call that is tried again stands again. `python3 .ci/hostile/retries.py [PROGRAM [COUNT [FIRST]]]`, after `rt run` or
`rt ci` made crates/wasmhost/out/wasmhost, tries COUNT scripts, 300 unless it is said, twelve times each; where FIRST is given, those from
that one on, and there each call of the file fails, by itself and as the first of some, as always in two scripts. It needs a C compiler.

Every reply but `frame`, `queued` and those to `retry` has to be that of the second model of scripts (crates/test_sessions/model), which
knows of no failed call; and behind the last `retry` every call has ended as it does there."""
import collections, itertools, os, random, re, subprocess, sys, tempfile

from scripts import MODULES, ROOT, Case, answers, told

WORKERS = (1, 2, 8)
# How many runs each script has, and how many calls of the file may fail behind the first.
RUNS, MOST_MORE = 4, 5
CALL = re.compile(r"(call \d+) (.*)")
ADMIT = "admit {} m 100 2 16 0 0 0\n"
# A store over two pages, both shared, for which another's page has to leave; and pages that leave and come back.
ALWAYS = [
    Case(
        "shared pages",
        {"frames": 4, "slots": 64, "tax_num": 0, "tax_den": 1},
        1,
        False,
        f"module m {MODULES['wide'][0]}\n" + ADMIT.format("a") + ADMIT.format("b") + "".join(f"invoke {name} s 9 {place}\n" for name in "ab" for place in ("0 1", "4096 2"))
        + "scan\ninvoke b s 9 8192 3\ninvoke a w 9 4092 578437695752307201\n" + "retry a\nretry b\n" * (MOST_MORE + 2),
    ),
    Case(
        "pages that leave",
        {"frames": 2, "slots": 15},
        1,
        False,
        f"module m {MODULES['bytes'][0]}\n" + ADMIT.format("a") + "".join(f"invoke a s 9 {4096 * page} {page + 1}\n" for page in range(3))
        + "invoke a l 9 0\n" + "retry a\n" * (MOST_MORE + 2),
    ),
]


def made(seed):
    """A script of two or three instances, which have more pages between them than there are frames."""
    chance = random.Random(seed)
    names = "abc"[: chance.choice((2, 3))]
    lines = [f"module m {MODULES['bytes'][0]}"] + [f"admit {name} m 100 2 16 0 0 0" for name in names]
    for _ in range(chance.randrange(20, 50)):
        name, place = chance.choice(names), 4096 * chance.randrange(6) + chance.randrange(3)
        lines.append(
            chance.choices(
                [f"invoke {name} s 9 {place} {chance.randrange(256)}", f"invoke {name} l 9 {place}", f"retry {name}", "drain", "scan"],
                [8, 8, 2, 1, 1],
            )[0]
        )
    lines += ["drain"] + [f"retry {name}" for name in names for _ in range(MOST_MORE + 2)]
    return Case(f"script {seed}", {"frames": 2 * len(names), "slots": 100, "quantum": chance.choice((1, 2, 1000))}, 1, False, "\n".join(lines) + "\n")


def ended(line):
    """The call of a line that says how it has ended, and how; none of another line."""
    match = CALL.fullmatch(line)
    return match.groups() if match and not match[2].startswith(("frame ", "queued")) else None


def others(lines):
    """The replies that are neither of calls nor of `retry`."""
    return [line for line in lines if not CALL.fullmatch(line) and not line.startswith("retry ")]


class Runs:
    """The runs of one script."""

    def __init__(self, program, library, folder, case):
        self.program, self.library, self.case = program, library, case
        self.failed, self.pages, self.settings = folder + "/failed", folder + "/pages", folder + "/host.toml"
        with open(self.settings, "w") as file:
            file.write("".join(f"{key} = {value}\n" for key, value in self.case.settings.items()) + f'swap = "{self.pages}"\n')
        self.right = answers(self.case, self.case.script.splitlines())

    def run(self, workers, at, more):
        """Runs the script with so many calls of the file failing from this one on. Answers which failed, and the replies."""
        given = {**os.environ, "LD_PRELOAD": self.library, "FAIL_IN": self.pages, "FAIL_AT": str(at), "FAIL_MORE": str(more), "FAILED": self.failed}
        words = [self.program, "--workers", str(workers), "--settings", self.settings]
        ran = subprocess.run(words, input=self.case.script.encode(), capture_output=True, env=given, timeout=60)
        failed = []
        if os.path.exists(self.failed):
            with open(self.failed) as file:
                failed = [line.split(" ")[0] for line in file]
            os.remove(self.failed)
        if (ran.returncode, ran.stderr) != (0, b""):
            sys.exit(f"{self.case.name}: {ran}")
        return failed, told(ran.stdout)

    def look(self, failed, got):
        """What is wrong with the replies; nothing where they are right."""
        if others(got) != others(self.right):
            return "another reply"
        if sorted(filter(None, map(ended, got))) != sorted(filter(None, map(ended, self.right))):
            return "a call has ended otherwise, twice or never"
        kinds = {"read": {"S1"}, "write": {"S2"}, "seek": {"S1", "S2"}}
        allowed = set().union(*(kinds[call] for call in failed)) if failed else set()
        said = {match[1] for line in got if (match := re.fullmatch(r"call \d+ frame (S\d) charges \d+", line))}
        return None if said <= allowed else f"a fault of the device that none of its calls had: {said} behind {failed}"

    def tried(self, workers, at, more):
        """Runs the script so, and looks at its replies. Answers how often calls failed, stood, and were tried again."""
        failed, got = self.run(workers, at, more)
        wrong = self.look(failed, got)
        if wrong:
            sys.exit(f"{self.case.name}, {workers} workers, call {at} and {more} more, {failed}: {wrong}\n{self.case.script}{chr(10).join(got)}")
        stood = sum(" frame S" in line for line in got)
        retried = sum(line.startswith("retry ") and line.endswith(" ok") for line in got)
        return collections.Counter(runs=1, failed=len(failed), stood=stood, retried=retried)

    def some(self):
        """Tries the script where no call fails, and where some do."""
        found, chance = collections.Counter(), random.Random(self.case.name)
        for workers in WORKERS:
            found += self.tried(workers, 0, 0)
            for _ in range(RUNS - 1):
                found += self.tried(workers, chance.randrange(1, 120), chance.choice((0, 0, 1, MOST_MORE)))
        return found

    def each(self):
        """Tries the script where the first call of the file fails, and some more, and so on to the last."""
        found = collections.Counter()
        for workers in WORKERS:
            for at in itertools.count(1):
                ran = self.tried(workers, at, 0)
                found += ran + self.tried(workers, at, MOST_MORE)
                if not ran["failed"]:
                    break
        return found


def main():
    program = os.path.abspath(sys.argv[1] if len(sys.argv) > 1 else ROOT + "/crates/wasmhost/out/wasmhost")
    count, found = int(sys.argv[2]) if len(sys.argv) > 2 else 300, collections.Counter()
    first = int(sys.argv[3]) if len(sys.argv) > 3 else None
    with tempfile.TemporaryDirectory() as folder:
        library = folder + "/fail_calls.so"
        subprocess.run(["cc", "-shared", "-fPIC", "-O1", "-o", library, os.path.join(ROOT, ".ci", "hostile", "fail_calls.c")], check=True)
        for case in ALWAYS:
            found += Runs(program, library, folder, case).each()
        for seed in range(first or 0, (first or 0) + count):
            runs = Runs(program, library, folder, made(seed))
            found += runs.some() if first is None else runs.each()
    print(f"{len(ALWAYS)} scripts and {count} random ones, {found['runs']} runs: {found['failed']} calls of the swap file failed, {found['stood']} lines `frame`, "
          f"{found['retried']} calls tried again; every reply was right, and every call has ended as it does alone")
    if min(found["failed"], found["stood"], found["retried"]) < count // 3:
        sys.exit("too few failed")


main()
