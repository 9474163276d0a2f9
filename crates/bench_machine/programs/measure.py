#!/usr/bin/env python3
"""Times `wasm-interp` and our own machine on the modules of table.txt, and prints million charges a second. A time is the
processor's, of the best of three runs, less that of loading the module alone. With --jsc it times WebKit's interpreter too. README.md
says more."""
import math, os, re, resource, subprocess, sys, tempfile

HERE = os.path.dirname(os.path.abspath(__file__))
CRATE = os.path.join(HERE, "..")
# Our own program, run in CRATE with the table on standard input: it prints `NAME CHARGES SECONDS SECONDS` for
# each module, over a flat memory and over one on shared frames.
OURS = ["rt", "run", "--", "-"]
# Debian's libjavascriptcoregtk-4.0-bin has it. Without its compilers it interprets.
JSC = ["jsc", "--useBBQJIT=false", "--useOMGJIT=false"]
# Nanoseconds below which an indirect jump was foretold: it takes 1.5 to 3 where it is, some 11 where it isn't.
FORETOLD = 5.0
# Jumps by a table from one place, in an order that comes again after 64 of them.
JUMPS = r"""
#include <stdio.h>
#include <stdlib.h>
#include <time.h>
int main(void) {
    static void *table[] = {&&a, &&b, &&c, &&d};
    unsigned char code[64];
    for (int at = 0; at < 64; at++) code[at] = rand() & 3;
    unsigned long left = 50000000, number = 1;
    int at = 0;
    clock_t start = clock();
next:
    if (--left == 0) goto end;
    at = (at + 1) % 64;
    void *to = table[code[at]];
    __asm__ volatile("" : "+r"(to));
    goto *to;
a: number += 3; goto next;
b: number ^= number << 1; goto next;
c: number *= 5; goto next;
d: number -= 7; goto next;
end:
    printf("%f %lu\n", (double)(clock() - start) / CLOCKS_PER_SEC * 1e9 / 5e7, number);
}
"""
LATER = ["--disable-sign-extension", "--disable-bulk-memory", "--disable-reference-types", "--disable-multi-value"]


def programs():
    """Name, bytes, result and charges of each."""
    name = data = None
    for line in open(os.path.join(HERE, "table.txt")):
        words = line.split()
        if words[0] == "module":
            name, data = words[1], bytes.fromhex(words[2])
        else:
            yield name, data, f"{words[3]}:{words[4]}", int(words[6])


def seconds(command):
    before = resource.getrusage(resource.RUSAGE_CHILDREN)
    out = subprocess.run(command, check=True, capture_output=True, text=True).stdout
    after = resource.getrusage(resource.RUSAGE_CHILDREN)
    return after.ru_utime + after.ru_stime - before.ru_utime - before.ru_stime, out


def best(command):
    runs = [seconds(command) for _ in range(3)]
    return min(time for time, _ in runs), runs[0][1]


def interpreted(data, wanted):
    with tempfile.NamedTemporaryFile(suffix=".wasm") as file:
        file.write(data)
        file.flush()
        loading, _ = best(["wasm-interp", *LATER, file.name])
        whole, out = best(["wasm-interp", *LATER, file.name, "--run-all-exports"])
    assert out.strip() == f"run() => {wanted}", out
    return whole - loading


def ours():
    """By name the charges that our own program counted, and its seconds over both memories."""
    with open(os.path.join(HERE, "table.txt")) as table:
        out = subprocess.run(OURS, cwd=CRATE, stdin=table, check=True, capture_output=True, text=True).stdout
    found = re.findall(r"^(\w+) (\d+) (\d+\.\d+) (\d+\.\d+)$", out, re.M)
    return {name: (int(charges), float(flat), float(framed)) for name, charges, flat, framed in found}


def jump():
    """Nanoseconds that an indirect jump takes on this processor."""
    with tempfile.TemporaryDirectory() as folder:
        built = os.path.join(folder, "jumps")
        subprocess.run(["cc", "-O2", "-x", "c", "-", "-o", built], input=JUMPS, text=True, check=True)
        return min(float(subprocess.run([built], check=True, capture_output=True, text=True).stdout.split()[0]) for _ in range(3))


def by_webkit(data):
    """Seconds that WebKit's interpreter takes, the best of three runs."""
    code = f"""const {{run}} = new WebAssembly.Instance(new WebAssembly.Module(new Uint8Array({list(data)})), {{}}).exports;
const start = preciseTime(); run(); print(preciseTime() - start);"""
    with tempfile.NamedTemporaryFile(suffix=".js", mode="w") as file:
        file.write(code)
        file.flush()
        return min(float(subprocess.run([*JSC, file.name], check=True, capture_output=True, text=True).stdout) for _ in range(3))


def mean(ratios):
    return math.exp(sum(map(math.log, ratios)) / len(ratios))


def main():
    webkit = "--jsc" in sys.argv
    names = [word for word in sys.argv[1:] if word != "--jsc"]
    taken = jump()
    print(f"indirect jumps {'are' if taken < FORETOLD else 'are not'} foretold: {taken:.1f} ns each")
    own, ratios, frames = ours(), [], []
    header = f"{'':10}{'charges':>12}{'wasm-interp s':>15}{'M/s':>8}"
    if own:
        header += f"{'ours s':>9}{'M/s':>8}{'times':>8}{'frames s':>10}{'of flat':>9}"
    print(header + (f"{'WebKit s':>12}" if webkit else ""))
    for name, data, wanted, charges in programs():
        if names and name not in names:
            continue
        time = interpreted(data, wanted)
        line = f"{name:10}{charges:12}{time:15.3f}{charges / time / 1e6:8.1f}"
        if name in own:
            counted, mine, framed = own[name]
            assert counted == charges, (name, counted, charges)
            ratios.append(time / mine)
            frames.append(framed / mine)
            line += f"{mine:9.3f}{charges / mine / 1e6:8.1f}{time / mine:8.2f}{framed:10.3f}{framed / mine:9.2f}"
        if webkit:
            line += f"{by_webkit(data):12.3f}"
        print(line, flush=True)
    if ratios:
        print(f"geometric mean of the times faster: {mean(ratios):.2f}, least {min(ratios):.2f}")
        print(f"geometric mean of the time on frames: {mean(frames):.2f} of the flat memory's")


if __name__ == "__main__":
    main()
