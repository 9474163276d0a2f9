#!/usr/bin/env python3
"""Runs wasmhost over scripts with one read, write or seek failing, for each of its calls in turn; and over a swap file that is
changed and cut while it runs; and over files that their modes forbid to open: `python3 .ci/hostile/devices.py [PROGRAM]`, after
`rt run` or `rt ci` made crates/wasmhost/out/wasmhost. It needs a C compiler.

Where a call of settings, script or output fails, the program ends with status 1 and that cause, behind a beginning of the replies.
Where a module's file can't be read, its line is C4. Where a call of the swap device fails, one call stands for that fault, and all
else is answered as by the second model of scripts (crates/test_sessions/model). It fails where anything else comes."""
import collections, itertools, os, re, shutil, subprocess, sys, tempfile

from scripts import CASES, MODULES, ROOT, Case, answers, digits, told

STOPPED = {"settings": b"wasmhost: settings: ", "script": b"wasmhost: script: ", "output": b"wasmhost: output: standard output: "}
FOLDER, NONE, FORBIDDEN_TO, FULL = (
    f"{words} (os error {number})"
    for words, number in (("Is a directory", 21), ("No such file or directory", 2), ("Permission denied", 13), ("No space left on device", 28))
)
LOADS = Case("a file", {}, 1, False, "load m {folder}/seven.wasm\nload n {folder}/none.wasm\nadmit a m 100 2 16 0 0 0\ninvoke a f 0\n")
WANTED = "settings script output module S1 S2".split()
FORBIDDEN = Case(
    "files that may not be opened",
    {},
    1,
    False,
    "load m {folder}/module\nload n {folder}/seven.wasm\nload m {folder}/seven.wasm\nadmit a m 100 2 16 0 0 0\ninvoke a f 0\n",
)
# Modes by which a file can't be read; a swap file has to be read and written.
UNREADABLE, UNUSABLE = (0o000, 0o222), (0o000, 0o222, 0o444)


def faults_in(got):
    """The faults for which calls stand, as the replies say it: by their names, which fault it is and behind how many charges."""
    found = [re.fullmatch(r"((?:call|start) \w+) frame (S\d) charges (\d+)", line) for line in got]
    return {match[1]: (match[2], int(match[3])) for match in found if match}


class Runs:
    """The runs of one script, in a folder of their own."""

    def __init__(self, program, library, folder, case):
        self.program, self.library, self.folder, self.case = program, library, folder, case
        self.script, self.settings = folder + "/host.script", folder + "/host.toml"
        self.failed, self.pages, self.module = folder + "/failed", folder + "/pages", folder + "/seven.wasm"
        text = case.script.format(folder=folder, **digits())
        self.lines = text.splitlines()
        self.files = {self.module: bytes.fromhex(MODULES["seven"][0])}
        with open(self.module, "wb") as file:
            file.write(self.files[self.module])
        with open(self.script, "w") as file:
            file.write(text)
        with open(self.settings, "w") as file:
            for key, value in case.settings.items():
                file.write(f"{key} = {value}\n" if isinstance(value, int) else f'{key} = "{self.pages}"\n')

    def run(self, number):
        """Runs the script with this call failing. Answers which call that was and of which file, and how the run ended."""
        given = {**os.environ, "LD_PRELOAD": self.library, "FAIL_AT": str(number), "FAILED": self.failed}
        words = [self.program, "--workers", str(self.case.workers), "--settings", self.settings, self.script]
        ran = subprocess.run(words, capture_output=True, env=given, timeout=60)
        if not os.path.exists(self.failed):
            return None, ran
        with open(self.failed) as file:
            call, descriptor, path = file.read().rstrip("\n").split(" ", 2)
        os.remove(self.failed)
        names = {self.settings: "settings", self.script: "script", self.pages: "swap", self.module: "module"}
        return (call, "output" if descriptor == "1" else names.get(path, path)), ran

    def kind(self, failed, ran):
        """What came of a failed call; None where it isn't what has to come."""
        got = told(ran.stdout)
        call, name = failed
        if name in STOPPED:
            whole = answers(self.case, self.lines, files=self.files)
            # The whole script comes by its first read; behind it the last drain is not answered.
            right = {"settings": [[]], "script": [[], answers(self.case, self.lines, is_whole=False, files=self.files)]}
            fits = got == whole[: len(got)] if name == "output" else got in right[name]
            return name if fits and ran.returncode == 1 and ran.stderr.startswith(STOPPED[name]) else None
        if (ran.returncode, ran.stderr) != (0, b""):
            return None
        if name == "module":
            return name if got == answers(self.case, self.lines, files={}) else None
        faults = faults_in(got)
        if name != "swap" or len(faults) > 1 or got != answers(self.case, self.lines, files=self.files, faults=faults):
            return None
        kinds = [fault for fault, _ in faults.values()]
        return None if kinds and kinds[0] not in {"read": ["S1"], "write": ["S2"], "seek": ["S1", "S2"]}[call] else (kinds or ["nothing"])[0]

    def tally(self):
        """Lets each call fail in turn. Answers a count by kinds."""
        kinds = collections.Counter()
        for number in itertools.count(0):
            failed, ran = self.run(number)
            if failed is None and (ran.returncode, told(ran.stdout)) != (0, answers(self.case, self.lines, files=self.files)):
                sys.exit(f"{self.case.name}: {ran}")
            if failed is None and number > 0:
                return kinds
            if failed is not None:
                kind = self.kind(failed, ran)
                if kind is None:
                    sys.exit(f"{self.case.name}, call {number}, {failed}: {ran.returncode} {ran.stderr} {ran.stdout.decode()}")
                kinds[kind] += 1


class Talk:
    """A running program that is asked line by line. What a `scan` behind them shows has been answered."""

    def __init__(self, program, settings):
        words = [program, "--settings", settings]
        self.ran = subprocess.Popen(words, stdin=subprocess.PIPE, stdout=subprocess.PIPE, text=True)

    def ask(self, text):
        self.ran.stdin.write(text + "scan\n")
        self.ran.stdin.flush()
        return list(iter(lambda: self.ran.stdout.readline().rstrip("\n"), "scan ok"))

    def end(self):
        self.ran.stdin.close()
        return self.ran.stdout.read(), self.ran.wait()


def expect(what, got, wanted):
    if got != wanted:
        sys.exit(f"{what}: {got} in place of {wanted}")


def changed_pages(program, folder):
    """A page that leaves for a file comes back as it was written, or its call stands: for S3 where another program changed it, until
    it is put back; and for S1 where the file was cut."""
    pages, settings = folder + "/changed", folder + "/changed.toml"
    with open(settings, "w") as file:
        file.write(f'frames = 2\nslots = 15\nswap = "{pages}"\n')
    talk = Talk(program, settings)
    stores = "".join(f"invoke a s 9 {4096 * page} {page + 1}\n" for page in range(3))
    asked = talk.ask(f"module m {MODULES['bytes'][0]}\nadmit a m 100 2 16 0 0 0\n{stores}")
    expect("stores", asked, ["module m ok", "admit a ok 0"] + [f"call {n} done charges 3" for n in (1, 2, 3)])
    with open(pages, "rb") as file:
        kept = file.read()
    expect("the slot", kept[:2], b"\x01\x00")
    write(pages, b"\xff" + kept[1:])
    expect("a changed page", talk.ask("invoke a l 9 0\n"), ["call 4 frame S3 charges 1"])
    expect("a vain retry", talk.ask("retry a\n"), ["retry a ok"])
    write(pages, kept)
    expect("a page put back", talk.ask("retry a\n"), ["retry a ok", "call 4 done 1 charges 2"])
    write(pages, kept[:100])
    expect("a page cut", talk.ask("invoke a l 9 4096\n"), ["call 5 frame S1 charges 1"])
    expect("the end", talk.end(), ("", 0))
    expect("what is left", os.path.getsize(pages), 0)


def odd_files(program, folder):
    """What keeps no bytes is taken as it is, and its faults are those of one call; a folder, and a file in none, are refused."""
    case = next(case for case in CASES if case.name == "pages that leave")
    lines, settings, pipe = case.script.format(**digits()).splitlines(), folder + "/odd.toml", folder + "/pipe"
    os.mkfifo(pipe)
    for path, faults in ((pipe, {"call 3": ("S2", 2)}), ("/dev/full", {"call 3": ("S2", 2)}), ("/dev/null", {"call 4": ("S1", 1)}), ("/dev/zero", {"call 4": ("S3", 1)})):
        expect(path, *ran_over(program, settings, path, lines, (0, b"", answers(case, lines, faults=faults))))
    for path, words in ((folder, FOLDER), (folder + "/none/pages", NONE)):
        expect(path, *ran_over(program, settings, path, lines, (1, f"wasmhost: swap: {path}: {words}\n".encode(), [])))


def no_modules(program, folder):
    """What is no regular file is no module's: its line is C4 at once, and the script's own pipe stays whole."""
    pipe = folder + "/a_pipe"
    os.mkfifo(pipe)
    paths = (pipe, "/dev/stdin", "/dev/fd/0", "/dev/zero", folder, "-")
    text = "".join(f"load m {path}\n" for path in paths) + "scan\n"
    ran = subprocess.run([program], input=text.encode(), capture_output=True, timeout=60, cwd=folder)
    wanted = [f"error C4 line {number}" for number in range(1, len(paths) + 1)] + ["scan ok"]
    expect("what is no file", (ran.returncode, ran.stderr, told(ran.stdout)), (0, b"", wanted))


def shown_texts(program):
    """Help and the version come to standard output; a full one is blamed."""
    with open(ROOT + "/bindings/c/wolqedir.h") as file:
        version = re.search(r'#define WQ_VERSION_TEXT "(.*)"', file.read())[1]
    for word, begins in (("--version", f"wasmhost {version}\n"), ("--help", "Runs WebAssembly modules ")):
        ran = subprocess.run([program, word], capture_output=True, timeout=60)
        expect(word, (ran.returncode, ran.stderr, ran.stdout.decode()[: len(begins)]), (0, b"", begins))
        with open("/dev/full", "w") as full:
            ran = subprocess.run([program, word], stdout=full, stderr=subprocess.PIPE, timeout=60)
        expect(word, (ran.returncode, ran.stderr), (1, STOPPED["output"] + f"{FULL}\n".encode()))


def ran_over(program, settings, path, lines, wanted):
    """What a script comes to with pages swapped to this path, and what it has to."""
    with open(settings, "w") as file:
        file.write(f'frames = 2\nslots = 15\nswap = "{path}"\n')
    ran = subprocess.run([program, "--settings", settings], input="\n".join(lines).encode(), capture_output=True, timeout=60)
    return (ran.returncode, ran.stderr, told(ran.stdout)), wanted


class Forbidden:
    """Runs over files some of which may not be opened; by the user `nobody` where this runs as root, whom no mode binds."""

    def __init__(self, program, folder):
        os.chmod(folder, 0o755)
        self.folder, self.program = folder, shutil.copy(program, folder + "/wasmhost")
        self.user = {"user": 65534, "group": 65534, "extra_groups": []} if os.geteuid() == 0 else {}
        self.script = FORBIDDEN.script.format(folder=folder)
        self.seven = bytes.fromhex(MODULES["seven"][0])
        self.make("seven.wasm", self.seven, 0o644)
        os.chmod(self.program, 0o755)
        self.tried = 0

    def make(self, name, contents, mode):
        path = os.path.join(self.folder, name)
        if os.path.exists(path):
            os.remove(path)
        with open(path, "wb") as file:
            file.write(contents)
        os.chmod(path, mode)

    def expect(self, modes, cause, pages="pages"):
        """That files with these modes stop the run for this cause; with none it goes on, without the module that may not be opened.
        What the swap file held is lost only where the host has opened it."""
        what = " ".join(f"{name} {mode:03o}" for name, mode in modes.items())
        self.make("module", self.seven, modes.get("module", 0o644))
        self.make("script", self.script.encode(), modes.get("script", 0o644))
        self.make("settings", f'swap = "{self.folder}/{pages}"\n'.encode(), modes.get("settings", 0o644))
        self.make("pages", b"kept", modes.get("pages", 0o666))
        words = [self.program, "--settings", self.folder + "/settings", self.folder + "/script"]
        ran = subprocess.run(words, capture_output=True, timeout=60, **self.user)
        files = {f"{self.folder}/{name}": self.seven for name in ("seven.wasm", "module") if name not in modes}
        whole = answers(FORBIDDEN, self.script.splitlines(), files=files)
        named = f"{self.folder}/{pages if cause == 'swap' else cause}"
        wanted = (1, f"wasmhost: {cause}: {named}: {FORBIDDEN_TO}\n".encode(), []) if cause else (0, b"", whole)
        expect(what, (ran.returncode, ran.stderr, told(ran.stdout)), wanted)
        os.chmod(self.folder + "/pages", 0o644)
        with open(self.folder + "/pages", "rb") as file:
            expect(f"{what}: the swap file", file.read(), b"kept" if cause in ("settings", "swap") else b"")
        self.tried += 1


def forbidden_files(program):
    """Runs over files that may not be opened, and one where all may. Answers how many."""
    with tempfile.TemporaryDirectory() as folder:
        runs = Forbidden(program, folder)
        runs.expect({}, None)
        for mode in UNREADABLE:
            runs.expect({"module": mode}, None)
            runs.expect({"script": mode}, "script")
            runs.expect({"settings": mode}, "settings")
        for mode in UNUSABLE:
            runs.expect({"pages": mode}, "swap")
        runs.expect({"script": 0, "pages": 0}, "swap")
        runs.expect({"script": 0, "pages": 0, "settings": 0}, "settings")
        # In this folder no file may be made.
        os.mkdir(folder + "/shut", 0o555)
        runs.expect({}, "swap", pages="shut/pages")
        expect("what was made", os.listdir(folder + "/shut"), [])
        return runs.tried


def write(path, contents):
    """Writes a file that the program has open, and leaves it the same file."""
    with open(path, "r+b") as file:
        file.write(contents)
        file.truncate()


def main():
    program = os.path.abspath(sys.argv[1] if len(sys.argv) > 1 else ROOT + "/crates/wasmhost/out/wasmhost")
    kinds = collections.Counter()
    with tempfile.TemporaryDirectory() as folder:
        library = folder + "/fail_calls.so"
        source = os.path.join(ROOT, ".ci", "hostile", "fail_calls.c")
        subprocess.run(["cc", "-shared", "-fPIC", "-O1", "-o", library, source], check=True)
        for place, case in enumerate([LOADS] + CASES):
            own = os.path.join(folder, str(place))
            os.mkdir(own)
            swapped = case._replace(settings={**case.settings, "swap": "pages"})
            found = Runs(program, library, own, swapped).tally()
            kinds += found
            print(f"{case.name}: {found.total()} calls failed in turn: " + ", ".join(f"{n} {kind}" for kind, n in sorted(found.items())))
        changed_pages(program, folder)
        odd_files(program, folder)
        no_modules(program, folder)
    shown_texts(program)
    forbidden = forbidden_files(program)
    print(f"{kinds.total()} runs with a call that failed: every reply was right; a swap file was changed, put back and cut; six odd ones were tried")
    print(f"{forbidden} runs, in all but one of which a file may not be opened: each stopped for it, or went on without that module")
    lacking = [kind for kind in WANTED if not kinds[kind]]
    if lacking:
        sys.exit(f"kinds that never came: {', '.join(lacking)}")


main()
