#!/usr/bin/env python3
"""Builds the library and tries it from C, Rust and Python, behind `rt ci`: `python3 .ci/library/library.py [ARCHIVE [WASMHOST]]`.
ARCHIVE is another libwolqedir.a than that which archive.py gives, and WASMHOST another program than crates/wasmhost/out/wasmhost.

It needs gcc, cargo and python3, and ends with the name of the one that is missing. The examples are built, under the sanitizers
where gcc has them, and have to print what examples/library has, the first also over the library as it is installed; random scripts
get of the library what they get of wasmhost; each code comes; turns are as the header says; copies come to what their calls come to
alone; modules go, and their memory with them; what is shown of instances while they live is what the second model has; a host that
is let go gives back all memory; where a request for memory is refused, the host is as it was; and the bindings keep numbers in their
ranges, hosts apart, and threads from one another."""
import os
import random
import re
import shutil
import subprocess
import sys
import tempfile

HERE = os.path.dirname(os.path.abspath(__file__))
ROOT = os.path.dirname(os.path.dirname(HERE))
SCRIPTS = 300
# Seconds, for what goes wrong by not ending.
LONGEST = 300


def run(words, **how):
    """Runs a command that has to go well: what it printed."""
    ran = subprocess.run(words, **{"cwd": ROOT, "stdout": subprocess.PIPE, "text": True, **how})
    if ran.returncode != 0:
        sys.exit(f"{' '.join(words)}: status {ran.returncode}\n{ran.stdout}")
    return ran.stdout


def tools():
    """Says which tool is missing."""
    for tool in ("gcc", "cargo", "python3"):
        if shutil.which(tool) is None:
            sys.exit(f"the library can't be tried: {tool} is missing")


def gather(given, folder):
    """Puts the archive, and the C of the toolchain's heap, into a folder, installs both there, and makes one more shared library of
    them that counts blocks of memory, and passes requests on, but for those that it is told to refuse."""
    from archive import KIT, archive

    shutil.copy(given or archive(), os.path.join(folder, "libwolqedir.a"))
    shutil.copy(os.path.join(KIT, "c", "liblibc_c.a"), folder)
    parts = ["-Wl,--whole-archive", folder + "/libwolqedir.a", "-Wl,--no-whole-archive", folder + "/liblibc_c.a"]
    run(["sh", "bindings/c/install.sh", folder, folder + "/installed"])
    shared = ["gcc", "-shared", "-fPIC", "-O1", "-o", folder + "/refusing.so", HERE + "/refuse.c", *parts]
    run([*shared, "-Wl,--wrap=malloc,--wrap=realloc,--wrap=free"])


def sanitizers(folder):
    """The flags of the sanitizers, if gcc has them."""
    flags = ["-fsanitize=address,undefined"]
    words = ["gcc", *flags, "-x", "c", "-", "-o", folder + "/empty"]
    ran = subprocess.run(words, input=b"int main(void) { return 0; }\n", stderr=subprocess.DEVNULL)
    return flags if ran.returncode == 0 else []


def examples(folder):
    """The examples print what was worked out by hand, and the tests of the Rust crate pass."""
    import installed

    flags = sanitizers(folder)
    libraries = [folder + "/libwolqedir.a", folder + "/liblibc_c.a"]
    warned = ["gcc", "-std=c11", "-Wall", "-Wextra", "-Werror", "-g", "-O1", *flags, "-Ibindings/c"]
    cargo = ["-q", "--offline", "--release", "--manifest-path", "bindings/rust/Cargo.toml"]
    rust = {"WOLQEDIR_LIB": folder, "CARGO_TARGET_DIR": folder + "/target"}
    python = {"WOLQEDIR_SO": folder + "/installed/lib/libwolqedir.so", "PYTHONPATH": ROOT + "/bindings/python"}
    run(["cargo", "test", *cargo, "--tests"], env={**os.environ, **rust})
    for name in ("hello", "warm"):
        run([*warned, f"examples/library/{name}.c", *libraries, "-o", f"{folder}/{name}"])
        with open(f"{ROOT}/examples/library/{name}.stdout") as file:
            wanted = file.read()
        for words, settings in (
            ([f"{folder}/{name}"], {}),
            (["cargo", "run", *cargo, "--example", name], rust),
            (["python3", f"examples/library/{name}.py"], python),
            *(installed.programs(folder + "/installed", folder) if name == "hello" else ()),
        ):
            got = run(words, env={**os.environ, **settings})
            if got != wanted:
                sys.exit(f"{' '.join(words)} printed\n{got}in place of\n{wanted}")
    return "under the sanitizers" if flags else "without sanitizers, which gcc lacks"


def plain(line):
    """A reply without the place of a fault, of which the library says nothing."""
    return re.sub(r"( refused [DVL]\d+) .*", r"\1", line)


def printed(program, settings, lines, folder):
    """What wasmhost prints for these lines."""
    with open(folder + "/settings", "w") as file:
        for key, value in settings.items():
            file.write(f'{key} = "{value}"\n' if isinstance(value, str) else f"{key} = {value}\n")
    text = "".join(line + "\n" for line in lines)
    return run([program, "--workers", "1", "--settings", folder + "/settings"], input=text, cwd=folder).splitlines()


def replies(lines):
    """Those that are no report."""
    return [plain(line) for line in lines if not line.startswith("#")]


def given(lines):
    """What lines of reports say that doesn't depend on turns: how many frames and slots there are, and what each instance was
    promised."""
    words = [line.split() for line in lines if line.startswith("#")]
    return [line[:5] if line[1].isdigit() else line[:3] for line in words if line[1] != "shared"]


def whole_report(program, folder):
    """A script whose report doesn't depend on turns: the lines of wasmhost are those of the library's numbers. How many."""
    from driven import MOST, Driven

    shutil.copy(ROOT + "/examples/hello.wasm", folder)
    script = ["load hello hello.wasm", "admit a hello 100 2 64 100 0 0 40 2", "admit b hello 200 3 48 100 0 0 1 2"]
    script += ["invoke a run 1000", "invoke b run 1000", "scan", "report", "release a", "report"]
    settings = {"frames": 1024, "slots": 4096, "tax_num": 3, "tax_den": 4}
    with open(ROOT + "/examples/hello.wasm", "rb") as file:
        driven = Driven(settings, {"hello.wasm": file.read()}, lambda: MOST)
    for line in script:
        driven.line(line.encode())
    driven.host.close()
    wanted = [line for line in printed(program, settings, script, folder) if line.startswith("#")]
    assert driven.reported == wanted and wanted, (driven.reported, wanted)
    return len(wanted)


def sessions(program, folder):
    """Random scripts get of the library what they get of wasmhost, and of the second model. How many replies that are, how many
    calls the transcripts in the end have, and which codes came."""
    from driven import MOST, Driven, generate
    from refusals import blocks

    generate.FILES.pop("too/great")  # It stands for a file for which there is no memory.
    for path, contents in generate.FILES.items():
        with open(os.path.join(folder, path), "wb") as file:
            file.write(contents)
    settings, count, calls, codes = generate.random_settings(40), 0, 0, set()
    for seed in range(1, SCRIPTS + 1):
        script, chosen, before = generate.Script(seed, settings).make(), random.Random(seed), blocks()
        driven = Driven(script.settings, generate.FILES, lambda: chosen.choice([1, 2, 7, 100, 1000, 5000, MOST]))
        got = []
        for line, _ in script.lines:
            got += driven.line(line.encode())
            codes.update(driven.traps())
        got += driven.end()
        codes.update(driven.codes, driven.traps())
        calls += driven.transcripts()
        driven.host.close()
        assert blocks() == before, (seed, blocks() - before)
        model = [plain(reply) for _, told in script.lines for reply in told] + [plain(reply) for reply in script.session.end()]
        wanted = model
        if program is not None:
            lines = printed(program, script.settings, [line for line, _ in script.lines], folder)
            wanted = replies(lines)
            assert given(driven.reported) == given(lines), (seed, driven.reported, lines)
        assert got == model == wanted, (seed, [pair for pair in zip(got, model, wanted) if len(set(pair)) > 1][:3])
        count += len(got)
    return count, calls, codes


def bindings(folder):
    """What the bindings owe beside the library, and what is installed."""
    import hosts
    import installed
    import names
    import ranges

    exports, places = names.same()
    print(f"{exports} exports and {places} places of structs are declared alike for Rattle, C, Rust and Python")
    print(f"the shared library shows {installed.shown(folder + '/installed/lib/libwolqedir.so')} exports and nothing else")
    print(f"the Rust crate says in {installed.missing(folder)} cases which library is missing")
    ranges.slices()
    print(f"{ranges.edges()} numbers at the edges of their ranges reach the library as they are, or raise")
    hosts.serials()
    hosts.values()
    print(f"{hosts.apart()} acts on what is of another host raise, and {hosts.buffers()} kinds of buffers bring a module")
    ran = subprocess.run(["python3", HERE + "/threads.py"], stdout=subprocess.PIPE, text=True, timeout=LONGEST)
    if ran.returncode != 0:
        sys.exit(f"threads.py: status {ran.returncode} behind\n{ran.stdout}")
    print(f"threads and signals on one host: {', '.join(ran.stdout.split())}")


def main(archive=None, program=ROOT + "/crates/wasmhost/out/wasmhost"):
    tools()
    sys.path.insert(0, HERE)
    with tempfile.TemporaryDirectory() as folder:
        gather(os.path.abspath(archive) if archive else None, folder)
        os.environ["WOLQEDIR_SO"] = folder + "/refusing.so"
        import codes
        import epochs
        import forks
        import lives
        import refusals
        import turns
        import unloads

        bindings(folder)
        print(f"{codes.texts()} codes have their sentences")
        print(f"the examples in C, Rust and Python print what they should, that in C {examples(folder)}")
        count, calls, seen = sessions(os.path.abspath(program) if program else None, folder)
        print(f"{SCRIPTS} random scripts, {count} replies: the library and wasmhost agree; {calls} calls of transcripts have their statuses")
        if program:
            print(f"{whole_report(os.path.abspath(program), folder)} lines of reports are those of the library's numbers")
        refused, spared, wanting = refusals.all_refused()
        print(f"{refused} requests for memory refused in turn: each time a code, or in {spared} no difference, and the host as before")
        met = {codes.named(code) for code in seen} | wanting | codes.met()
        assert refusals.blocks() == 0, refusals.blocks()
        print("each host gave back all blocks of memory that it had taken")
        print(f"{turns.alike()} runs gave instances their turns of 1000 charges, one after the other")
        print(f"{forks.warm()} copies of a template took frames for what they wrote, and {forks.alone()} calls of others came to the same alone")
        print(f"{unloads.again()} times a module came and went in the memory of the first, and {unloads.among()} went among others")
        print(f"{lives.exports()} exports are told as the second reading has them, and {lives.outputs()} bytes were shown before they went")
        print(f"{lives.beside()} bytes of memory were read as the second model has them, {lives.swapped()} pages of it in swap; {lives.merged()} merges are counted")
        print(f"{epochs.begun()} runs began epochs where the header says")
        lacking = {codes.named(code) for code in codes.codes()} - met - codes.UNMET
        assert not lacking, f"codes that never came: {sorted(lacking)}"
        print(f"{len(met)} codes came, and nothing was done at any but 0")


main(*(word or None for word in sys.argv[1:]))
