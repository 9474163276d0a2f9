#!/usr/bin/env python3
"""Runs what the pages of the guide show, and looks whether it prints what they say: `guides.py [--from CLONE] [PAGE..]`, by hand.

Each block of a page has a step below, in the order of the page, so none can be added, changed or go stale unseen. Commands run in a
copy of the clone's examples and bindings, with the programs and the archive that were built in CLONE, this one by default: `rt` is a
stand-in there, which proves and builds nothing, and runs what was built. A page for which a tool or a package is missing is named,
and not run. What the pages put into /tmp lies there afterwards."""
import argparse
import ast
import functools
import os
import pathlib
import re
import shutil
import subprocess
import sys
import tempfile

ROOT = pathlib.Path(__file__).resolve().parent.parent
BUILT = ["wasmhost", "wasmhost_check", "example_embedding"]
# The least of `rt`: where the toolchain lies, and a program that was built.
STANDIN = """#!/bin/sh
case $1 in
doc) exec {rt} doc ;;
lib) exit 0 ;;
esac
shift
[ "${{1-}}" = -- ] && shift
exec "out/$(basename "$PWD")" "$@"
"""


class Stale(Exception):
    """What a page shows differs from what happens."""


class Page:
    """A page, its blocks, the folder in which they run, and what the last of them printed."""

    def __init__(self, name, folder, path):
        self.name, self.folder, self.path, self.printed = name, folder, path, ""
        self.text = (ROOT / name).read_text()

    def blocks(self):
        """The fenced and the indented blocks, in order."""
        pattern = r"^```\w*\n((?:(?!```).*\n)*)```$|((?:^    .*\n(?:\n(?=    ))?)+)"
        for fenced, indented in re.findall(pattern, self.text, re.M):
            yield fenced or re.sub(r"^    ", "", indented, flags=re.M)

    def run(self, command, status=0, text=None):
        """Runs a command by bash, which has to end with this status: what it printed."""
        where = {**os.environ, "PATH": self.path, "CARGO_NET_OFFLINE": "true"}
        words = ["bash", "-euo", "pipefail", "-c", command]
        ran = subprocess.run(words, cwd=self.folder, env=where, input=text, text=True, capture_output=True, timeout=300)
        if ran.returncode != status:
            raise Stale(f"{command}\nhas status {ran.returncode}, and prints\n{ran.stdout}{ran.stderr}")
        self.printed = ran.stdout

    def has(self, text):
        """The page has this text."""
        if text not in self.text:
            raise Stale(f"the page lacks {text!r}")


def same(found, wanted):
    if found != wanted:
        raise Stale(f"printed\n{found}in place of\n{wanted}")


# The steps: each is given the page and one of its blocks.


def runs(page, block):
    page.run(block)


def shows(page, block):
    same(page.printed, block)


def shows_times(count):
    """The last block printed this one so many times."""
    return lambda page, block: same(page.printed, block * count)


def shows_lines(page, block):
    """The lines stand in the files of the examples that they name behind them."""
    for line in block.splitlines():
        code, name = re.fullmatch(r"(.*?)  (?://|#) (\S+)", line).groups()
        found = [file for file in (*ROOT.glob("examples/library/*"), *ROOT.glob("bindings/rust/examples/*")) if file.name == name]
        same(str([code in file.read_text() for file in found]), "[True]")


def shows_alike(name, other):
    """The programs that the first block builds and runs in its last three lines print this block under another name."""

    def step(page, block):
        lines = next(page.blocks()).splitlines()[-3:]
        page.run("\n".join(line.replace(name, other) for line in lines))
        same(page.printed, block * 3)

    return step


def begins(page, block):
    same(page.printed[: len(block)], block)


def in_folder(folder, **settings):
    """A block that runs in another folder, and with other settings."""
    before = "".join(f"export {key}={value}; " for key, value in settings.items())
    return lambda page, block: page.run(f"{before}cd {folder}\n{block}")


def is_file(path):
    """A block that is a file of the repository."""
    return lambda page, block: same(block, (ROOT / path).read_text())


def prints(text):
    """A block that prints what the page says behind it, in its text."""

    def step(page, block):
        page.has(f"prints `{text}`")
        page.run(block)
        same(page.printed, text + "\n")

    return step


def made(path, text):
    """A block that makes a file, of which the page says how many bytes it has."""

    def step(page, block):
        page.run(block)
        page.has(text.format(os.path.getsize(path)))

    return step


def asked(page, block):
    """A block that is a script."""
    page.run("wasmhost", text=block)


def written(path, command):
    """A block that is a file, which a command of the page's text reads and refuses."""

    def step(page, block):
        page.has(f"`{command}`")
        with open(os.path.join(page.folder, path), "w") as file:
            file.write(block)
        page.run(command, status=1)

    return step


def half(page, block):
    """The program of the page on checking, and the module that is refused."""
    source = re.search(r"`half\.c` is `(.*?)`", page.text)[1]
    *compiling, checking = block.splitlines()
    with open(os.path.join(page.folder, "half.c"), "w") as file:
        file.write(source + "\n")
    page.run("\n".join(compiling))
    page.run(checking, status=1)


def as_json(page, block):
    page.run("wasmhost_check --json module half.wasm", status=1)
    same(page.printed, block)


def hello(page, block):
    """A block that prints what the script with the same requests does."""
    page.run("wasmhost examples/hello.script")
    wanted = page.printed
    page.run(block)
    same(page.printed, wanted)


def bounded(page, block):
    """A block that runs a script under a limit; and what the page says of the client in Python."""
    shutil.copy(ROOT / "examples" / "first.script", os.path.join(page.folder, "host.script"))
    page.run(block)
    same(page.printed, "module m ok\n")
    given, wanted = re.search(r"`(Host\(\)\.ask\(.*?\))` gives `(\[.*?\])`", page.text).groups()
    page.run(f"cd examples && python3 -c 'from asking import Host\nprint({given})'")
    same(ast.literal_eval(page.printed), ast.literal_eval(wanted))


def parallel(page, block):
    page.run("rm -rf scripts out jobs.log\n" + block)
    page.has("`grep -L '^release a ok' out/job?`")
    page.run("grep -L '^release a ok' out/job? || [ $? -eq 1 ]")
    same(page.printed, "")


# What is looked at behind the blocks: each is given the page.


def flags(page):
    """The table of flags of Rust: for each row the module has so many bytes, and gets this reply."""
    command = re.search(r"^    (rustc --target (?:.*\n)*?.*/tmp/words\.wasm)$", page.text, re.M)[1]
    lines = re.findall(r"^\| (all of these|without .*?) \| (\d+) \| (.*?) \|$", page.text, re.M)
    for what, size, reply in lines:
        left_out = ["-C lto=yes", "-C strip=symbols"] if what == "without both" else re.findall(r"`(.*?)`", what)
        shorter = functools.reduce(lambda words, flag: words.replace(f" {flag}", ""), left_out, command)
        page.run(f'PATH="/usr/bin:$PATH"; cd examples/rust; {shorter}')
        same(str(os.path.getsize("/tmp/words.wasm")), size)
        page.run("wasmhost", text="load words /tmp/words.wasm\n")
        fault = re.match(r"`(.*?)`", reply)
        same(page.printed, f"module words refused {fault[1]}\n" if fault else "module words ok\n")
    admitted, runs_from = map(int, re.search(r"A7 below MAX (\d+), T1 below (\d+)", lines[-1][2]).groups())
    for most, wanted in ((admitted - 1, "refused A7"), (admitted, "trap T1"), (runs_from - 1, "trap T1"), (runs_from, "done 2 ")):
        script = f"load w /tmp/words.wasm\nadmit a w 100 2 {most} 100 0 0 2\ninvoke a run 100000\n"
        page.run("wasmhost", text=script)
        same(str(wanted in page.printed), "True")


def tables(page):
    """The examples of the page's tables of faults, each of which is a script of its own."""
    count = 0
    for name, cells in re.findall(r"^\| ([DVLC]\d+) \|(.*)\|$", page.text, re.M):
        *_, example, reply = [""] + [cell.strip() for cell in cells.split("|")]
        lines, wanted = re.findall(r"`([^`]*)`", example), re.findall(r"`([^`]*)`", reply)
        if not wanted or not re.match(r"`(module|load|drain)", example):
            continue
        page.run("wasmhost", text="".join(line + "\n" for line in lines * (2 if "twice" in example else 1)))
        before = "" if name[0] == "C" else f"module {lines[0].split()[1]} refused "
        same(page.printed, "".join(f"{before}{line}\n" for line in wanted))
        count += 1
    # D1 to D12, V1 to V8, V10, L1, L2, and C1 to C4.
    if count != 27:
        raise Stale(f"{count} examples of faults")


def left(reason):
    """A block that isn't run."""
    return lambda page, block: None


PACKAGES, SYNOPSIS = left("it installs packages"), left("no command, but the form of one")
WASI = ["clang", "wasm-ld", "/usr/lib/wasm32-wasi/libc.a", "/usr/lib/llvm-14/lib/clang/14.0.6/lib/wasi/libclang_rt.builtins-wasm32.a"]
# What each page wants, its steps, and what is looked at behind them.
PAGES = {
    "README.md": (
        ["wasmhost", "clang", "wasm-ld"],
        [runs, begins, runs, shows, left("the gate, an hour and more")],
    ),
    "docs/guide/checking.md": (
        ["wasmhost_check", "clang", "wasm-ld"],
        [SYNOPSIS, half, shows, written("bad.toml", "wasmhost_check settings bad.toml"), shows]
        + [written("bad.script", "wasmhost_check script bad.script"), shows, as_json],
    ),
    "docs/guide/compiling-c.md": (
        ["wasmhost", "clang", "wasm-ld", "xxd"],
        [is_file("examples/hello.c"), prints("module hello ok")],
    ),
    "docs/guide/compiling-cpp.md": (
        ["wasmhost", "clang++", "/usr/lib/wasm32-wasi/libc++.a", *WASI],
        [PACKAGES, is_file("examples/cpp/shapes.cpp"), made("/tmp/shapes.wasm", "It has {} bytes"), shows],
    ),
    "docs/guide/compiling-libc.md": (
        ["wasmhost", *WASI],
        [PACKAGES, is_file("examples/libc/sort.c"), made("/tmp/sort.wasm", "It has {} bytes"), shows],
    ),
    "docs/guide/compiling-rust.md": (
        ["wasmhost", "/usr/bin/rustc", "wasm-ld", "/usr/lib/rustlib/wasm32-unknown-unknown"],
        [PACKAGES, is_file("examples/rust/words.rs"), in_folder(".", RUSTC="/usr/bin/rustc"), shows]
        + [in_folder("examples/rust", PATH='"/usr/bin:$PATH"')],
        flags,
    ),
    "docs/guide/embedding.md": (
        ["example_embedding"],
        [is_file("crates/example_embedding/src/main.rt"), in_folder("crates/example_embedding"), shows_times(2)],
    ),
    "docs/guide/library.md": (
        ["libwolqedir.a", "gcc", "cargo"],
        [runs, shows_times(3), shows_lines, shows_alike("hello", "warm"), shows_lines],
    ),
    "docs/guide/many-machines.md": (
        ["wasmhost", "parallel", "xxd", "/tmp/hello.wasm"],
        [left("it writes to /usr/local"), parallel],
    ),
    "docs/guide/operating.md": (
        ["wasmhost", "/tmp/hello.wasm"],
        [asked, shows, hello, bounded, left("it wants a full disk: .ci/hostile/devices.py has one")],
    ),
    "docs/guide/script.md": (["wasmhost"], [SYNOPSIS, left("the report of a longer script")], tables),
}


def copy_clone(folder, built):
    """The examples, the bindings, and what was built, as a clone has them; and the path on which the programs are found."""
    for name in ("examples", "bindings"):
        shutil.copytree(ROOT / name, os.path.join(folder, name), ignore=shutil.ignore_patterns("target", "__pycache__"))
    bin_folder = os.path.join(folder, "bin")
    os.mkdir(bin_folder)
    for name in [*BUILT, "wolqedir"]:
        crate, out = built / "crates" / name, os.path.join(folder, "crates", name, "out")
        os.makedirs(out)
        for part in (name, f"lib{name}.a"):
            if (crate / "out" / part).is_file():
                shutil.copy(crate / "out" / part, out)
        for part in ("stdin", "data"):
            if (ROOT / "crates" / name / part).exists():
                os.symlink(ROOT / "crates" / name / part, os.path.join(folder, "crates", name, part))
        if os.path.exists(os.path.join(out, name)):
            os.symlink(os.path.join(out, name), os.path.join(bin_folder, name))
    with open(os.path.join(bin_folder, "rt"), "w") as file:
        file.write(STANDIN.format(rt=shutil.which("rt")))
    os.chmod(os.path.join(bin_folder, "rt"), 0o755)
    return bin_folder + ":" + os.environ["PATH"]


def missing(wants, folder, path):
    """What isn't there of what a page wants: a file, a program on the path, or the archive."""
    archive = os.path.join(folder, "crates", "wolqedir", "out", "libwolqedir.a")
    for want in wants:
        found = os.path.exists(archive if want == "libwolqedir.a" else want) or shutil.which(want, path=path)
        if not found:
            yield want


def tried(name, folder, path):
    """Runs a page: whether it is as it says."""
    wants, steps, *behind = PAGES[name]
    lacking = list(missing(wants, folder, path))
    if lacking:
        print(f"{name}: not run, since {', '.join(lacking)} is missing")
        return True
    page = Page(name, folder, path)
    blocks = list(page.blocks())
    try:
        if len(blocks) != len(steps):
            raise Stale(f"it has {len(blocks)} blocks, and {len(steps)} are known:\n" + "\n".join(block.split("\n")[0] for block in blocks))
        for step, block in zip(steps, blocks):
            step(page, block)
        for look in behind:
            look(page)
    except (Stale, subprocess.TimeoutExpired) as fault:
        print(f"{name}: {fault}")
        return False
    print(f"{name}: {len(blocks)} blocks are as it says")
    return True


def main():
    parser = argparse.ArgumentParser(description=__doc__.split("\n")[0])
    parser.add_argument("--from", dest="clone", type=pathlib.Path, default=ROOT)
    parser.add_argument("pages", nargs="*", metavar="PAGE", help="as docs/guide/script.md")
    given = parser.parse_args()
    unknown = [name for name in given.pages if name not in PAGES]
    unknown += [str(page.relative_to(ROOT)) for page in ROOT.glob("docs/guide/*.md") if str(page.relative_to(ROOT)) not in PAGES]
    if unknown:
        sys.exit(f"no steps are known of {', '.join(unknown)}")
    with tempfile.TemporaryDirectory() as folder:
        path = copy_clone(folder, given.clone.resolve())
        return 0 if all([tried(name, folder, path) for name in given.pages or PAGES]) else 1


sys.exit(main())
