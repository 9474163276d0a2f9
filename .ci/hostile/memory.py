#!/usr/bin/env python3
"""Runs wasmhost over scripts with one request for memory refused, for each of its requests in turn, and over a short one with
each two: `python3 .ci/hostile/memory.py [PROGRAM]`, after `rt run` or `rt ci` made crates/wasmhost/out/wasmhost. It needs a C compiler.

What has to come is worked out by the second model of scripts (crates/test_sessions/model): the line whose request was refused
changes nothing and is answered so, and every other line is answered as the model answers it then; or the program ends with
status 1 and `wasmhost: memory` behind a beginning of such lines; and it may say that threads were refused. It fails where anything
else comes, and where a kind of answer didn't come at all."""
import collections, concurrent.futures, itertools, os, re, subprocess, sys, tempfile

from scripts import CASES, MODULES, REFUSED_THREADS, ROOT, answers, digits, told

# Which causes may name want of memory for a module, by what the host says of it otherwise.
STAGES = {"ok": "D13 V11 L3 M2", "D": "D13", "V": "D13 V11", "L": "D13 V11 L3"}

WANTED = "D13 V11 L3 M2 A9 H7 C5 F2 memory threads".split()
# The bytes of a leaf of a page table, and how many leaves an instance has by its greatest number of pages. The bytes of the links
# of a page, and how many lists of links an instance has.
LEAF, LEAVES = 2048, {256: 1, 257: 2, 65536: 256}
LINK, LINKS = 24, {256: 1, 257: 1, 65536: 1}


def causes(line):
    """By which causes a line of a script may name want of memory, beside C5."""
    words = line.split(" ")
    if words[0] != "module":
        return {"admit": "A9", "invoke": "H7"}.get(words[0], "").split()
    verdict = dict(MODULES.values()).get(words[2], "")
    return STAGES.get(verdict if verdict == "ok" else verdict[len("refused ")], "").split()


def explanations(lines, got):
    """Which lines may have found no memory, as far as the replies say it: a dictionary for each possibility."""
    found = []
    for reply in got:
        if match := re.fullmatch(r"error C5 line (\d+)", reply):
            found.append([(int(match[1]), "C5")])
        elif match := re.fullmatch(r"(module|admit|call) (\w+) refused (D13 at \d+|V11 module|V11 func \d+ instr \d+|L3|M2|A9|H7)", reply):
            start = "invoke " if match[1] == "call" else f"{match[1]} {match[2]} "
            numbers = [number for number, line in enumerate(lines, 1) if line.startswith(start)]
            found.append([(number, match[3]) for number in numbers if match[3].split(" ")[0] in causes(lines[number - 1])])
    return [dict(choice) for choice in itertools.product(*found)]


def outcome(case, lines, ran, most):
    """How a run ended: the kinds of its answers, or None where it is neither right nor want of memory."""
    got, said = told(ran.stdout), ran.stderr.removesuffix(REFUSED_THREADS)
    rights = [(found, answers(case, lines, wanting=found)) for found in explanations(lines, got) if len(found) <= most]
    if (ran.returncode, said) == (0, b""):
        kinds = [[code.split(" ")[0] for code in found.values()] for found, right in rights if right == got]
    elif (ran.returncode, said) == (1, b"wasmhost: memory\n"):
        kinds = [["memory"] + [code.split(" ")[0] for code in found.values()] for found, right in rights if right[: len(got)] == got]
    else:
        kinds = []
    threads = ["threads"] if said != ran.stderr else []
    return kinds[0] + threads if kinds else None


def sizes_in(path):
    """The sizes that were refused; none where nothing was."""
    if not os.path.exists(path):
        return []
    with open(path) as file:
        return [int(line) for line in file]


def most_of(lines, ran):
    """The greatest number of pages of the instance whose admission found no memory."""
    name = re.search(r"admit (\w+) refused A9", ran.stdout.decode())[1]
    return next(int(line.split(" ")[5]) for line in lines if line.startswith(f"admit {name} "))


class Runs:
    """The runs of one script, in a folder of their own."""

    def __init__(self, program, library, folder, case):
        self.program, self.library, self.folder, self.case = program, library, folder, case
        self.script = case.script.format(**digits())
        self.lines = self.script.splitlines()

    def settings(self, own):
        """Writes the settings of a run, whose files begin with `own`."""
        with open(own + ".toml", "w") as file:
            for key, value in self.case.settings.items():
                file.write(f"{key} = {value}\n" if isinstance(value, int) else f'{key} = "{own}.{value}"\n')
        return own + ".toml"

    def run(self, numbers):
        """Runs the script with these requests refused. Answers how it ended, and the sizes that were refused."""
        with tempfile.TemporaryDirectory(dir=self.folder) as own:
            given = {**os.environ, "LD_PRELOAD": self.library, "REFUSE_AT": ",".join(map(str, numbers)), "REFUSED": own + "/refused"}
            words = [self.program, "--workers", str(self.case.workers), "--settings", self.settings(own + "/host")]
            ran = subprocess.run(words, input=self.script.encode(), capture_output=True, env=given, timeout=60)
            sizes = sizes_in(own + "/refused")
        kinds = outcome(self.case, self.lines, ran, len(numbers))
        if kinds is None:
            sys.exit(f"{self.case.name}, request {numbers}: {ran.returncode} {ran.stderr} {ran.stdout.decode()}")
        if "memory" in kinds and ran.stdout == b"" and max(sizes, default=0) >= 4096 * self.case.settings.get("frames", 1024):
            kinds = kinds + ["F2"]
        if kinds == ["A9"]:
            most = most_of(self.lines, ran)
            kinds = kinds + [f"{part} of {most}" for part, size in (("leaf", LEAF), ("links", LINK * most)) if sizes == [size]]
        return kinds, sizes


def refusals(runs, pool):
    """Refuses each request in turn, and each two where the case asks for it. Answers how many runs there were, and a count by
    kinds."""
    assert runs.run([])[0] == [], runs.case.name
    count, kinds = 0, collections.Counter()
    step = 64
    for first in itertools.count(1, step):
        came = list(pool.map(runs.run, [[number] for number in range(first, first + step)]))
        refused = [found for found, sizes in came if sizes]
        count += len(refused)
        kinds.update(kind for found in refused for kind in found or ["nothing"])
        if len(refused) < step:
            break
    singles = count
    if runs.case.pairs:
        for found, sizes in pool.map(runs.run, map(list, itertools.combinations(range(1, singles + 1), 2))):
            count += 1
            kinds.update(found or ["nothing"])
    return singles, count, kinds


def main():
    program = os.path.abspath(sys.argv[1] if len(sys.argv) > 1 else ROOT + "/crates/wasmhost/out/wasmhost")
    total, kinds = 0, collections.Counter()
    with tempfile.TemporaryDirectory() as folder, concurrent.futures.ThreadPoolExecutor(os.cpu_count()) as pool:
        library = folder + "/refuse_memory.so"
        source = os.path.join(ROOT, ".ci", "hostile", "refuse_memory.c")
        subprocess.run(["cc", "-shared", "-fPIC", "-O1", "-o", library, source], check=True)
        for place, case in enumerate(CASES):
            own = os.path.join(folder, str(place))
            os.mkdir(own)
            singles, count, found = refusals(Runs(program, library, own, case), pool)
            total, kinds = total + count, kinds + found
            print(f"{case.name}: {singles} requests refused in turn, {count} runs: " + ", ".join(f"{n} {kind}" for kind, n in sorted(found.items())))
    print(f"{total} runs with memory refused: every reply was right")
    lacking = [kind for kind in WANTED if not kinds[kind]]
    if lacking:
        sys.exit(f"kinds that never came: {', '.join(lacking)}")
    for part, wanted in (("leaf", LEAVES), ("links", LINKS)):
        found = {most: kinds[f"{part} of {most}"] for most in wanted}
        if found != wanted:
            sys.exit(f"requests for each {part}, by the greatest number of pages: {found} in place of {wanted}")


main()
