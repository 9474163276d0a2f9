#!/usr/bin/env python3
"""A long life of one host, by hand: `python3 .ci/hostile/soak.py [--program FILE] [--workers N] [--cycles N] [--calls N]`, after
`rt run` made crates/wasmhost/out/wasmhost. No compiler is needed.

First so many cycles: an instance is admitted, fills pages and sums them up, and the one that was admitted 60 cycles before is
released. 60 instances of three pages live on 128 frames, with 1024 slots in a file. Then so many calls of one instance, with a
drain behind each; behind its 65535th (a host gives an instance 65536, its start among them) each is refused H6.

Every line that doesn't begin with # is compared with what the second model of scripts (crates/test_sessions/model) answers to such
a life; in each report the frames and slots that are charged to instances are those that are in use, and the instances are those that
live, by number; in the end all frames and slots are free. It fails at the first line that differs. It prints, for each twentieth
of the cycles and calls, how long one took and what memory the program holds."""
import argparse, os, re, subprocess, sys, tempfile, time

from scripts import ROOT
from model import Session
from modules import BUILT

LIVING, PAGES, VALUES, FRAMES, SLOTS, FUEL, BATCH = 60, 3, 7, 128, 1024, 10**6, 50
CALLS = 65536
MODULE = BUILT["pages"].spelled()


def alone(*calls):
    """What each of these calls gets on an instance of its own, by the second model: the words behind its number."""
    session = Session(FRAMES, SLOTS, {}, {MODULE: "ok"})
    lines = [f"module m {MODULE.hex()}", "admit a m 100 2 16 0 0 0", *(f"invoke a {call}" for call in calls)]
    said = [reply for line in lines for reply in session.line(line.encode())] + session.end()
    return [line.split(" ", 2)[2] for line in said if line.startswith("call ")]


class Host:
    """The program at the other end of two pipes."""

    def __init__(self, program, workers, folder):
        settings = os.path.join(folder, "host.toml")
        with open(settings, "w") as file:
            file.write(f'frames = {FRAMES}\nslots = {SLOTS}\nswap = "{os.path.join(folder, "pages")}"\n')
        words = [program, "--workers", str(workers), "--settings", settings]
        self.process = subprocess.Popen(words, stdin=subprocess.PIPE, stdout=subprocess.PIPE, text=True, bufsize=1 << 20)

    def ask(self, lines):
        self.process.stdin.write("".join(line + "\n" for line in lines))
        self.process.stdin.flush()

    def expect(self, lines):
        """The next lines are these; what begins with # before and between them is answered."""
        reports = []
        for line in lines:
            got = self.process.stdout.readline()
            while got.startswith("#"):
                reports.append(got)
                got = self.process.stdout.readline()
            if got != line + "\n":
                sys.exit(f"wanted {line!r}, got {got!r}")
        return reports

    def memory(self):
        """How many bytes of the machine's memory the program holds."""
        with open(f"/proc/{self.process.pid}/status") as file:
            return 1024 * int(re.search(r"VmRSS:\s+(\d+)", file.read())[1])


def check_report(report, numbers):
    """The frames and slots that are in use are those of these instances, and no others."""
    text = "".join(report)
    frames, used, free = map(int, re.search(r"# frames (\d+) used (\d+) free (\d+)", text).groups())
    slots, held, left = map(int, re.search(r"# slots (\d+) used (\d+) free (\d+)", text).groups())
    rows = [list(map(int, row)) for row in re.findall(r"#\s*(\d+)\s+100\s+2\s+16\s+(\d+)\s+\d+\s+(\d+) ", text)]
    right = (frames, slots, used + free, held + left) == (FRAMES, SLOTS, FRAMES, SLOTS)
    if not right or [row[0] for row in rows] != numbers or [sum(row[place] for row in rows) for place in (1, 2)] != [used, held]:
        sys.exit("a report that doesn't add up:\n" + text)


def show(kind, count, seconds, host):
    print(f"{kind} {count:8}  {seconds * 1e6:7.1f} us each  {host.memory() / 2**20:7.2f} MB", flush=True)


def run_cycles(host, cycles):
    """Admits, calls and releases; and at last releases those that live. Answers how many calls there were."""
    said = {value: alone(f"fill {FUEL} 0 {PAGES} {value}", f"sum {FUEL} 0 {PAGES}")[:2] for value in range(VALUES)}
    called, since, step = 0, time.monotonic(), max(cycles // 20, 1)
    for first in range(0, cycles, BATCH):
        asked, wanted, last = [], [], min(first + BATCH, cycles)
        for cycle in range(first, last):
            value, name = cycle % VALUES, f"i{cycle}"
            asked += [f"admit {name} m 100 2 16 0 0 0", f"invoke {name} fill {FUEL} 0 {PAGES} {value}", f"invoke {name} sum {FUEL} 0 {PAGES}"]
            wanted += [f"admit {name} ok {cycle}"]
            if cycle >= LIVING:
                asked.append(f"release i{cycle - LIVING}")
            else:
                asked.append("drain")
            wanted += [f"call {called + 1} {said[value][0]}", f"call {called + 2} {said[value][1]}"]
            called += 2
            if cycle >= LIVING:
                wanted.append(f"release i{cycle - LIVING} ok -")
        # Behind a report stands a line of its own, so that all of it has come.
        asked += ["scan", "report", "scan"]
        wanted += ["scan ok", "scan ok"]
        host.ask(asked)
        check_report(host.expect(wanted), list(range(max(last - LIVING, 0), last)))
        if last // step != first // step:
            show("cycle", last, (time.monotonic() - since) / step, host)
            since = time.monotonic()
    living = range(max(cycles - LIVING, 0), cycles)
    host.ask([f"release i{number}" for number in living] + ["report", "scan"])
    check_report(host.expect([f"release i{number} ok -" for number in living] + ["scan ok"]), [])
    return called


def run_calls(host, number, called, calls):
    """Calls one instance again and again; and releases it."""
    (said, *_) = alone(f"sum {FUEL} 0 {PAGES}")
    host.ask(["admit last m 100 2 16 0 0 0"])
    host.expect([f"admit last ok {number}"])
    since, step = time.monotonic(), max(calls // 20, 1)
    for first in range(0, calls, BATCH):
        last = min(first + BATCH, calls)
        host.ask([line for _ in range(first, last) for line in (f"invoke last sum {FUEL} 0 {PAGES}", "drain")] + ["scan"])
        told = [said if call < CALLS - 1 else "refused H6" for call in range(first, last)]
        host.expect([f"call {called + call + 1} {said}" for call, said in zip(range(first, last), told)] + ["scan ok"])
        if last // step != first // step:
            show("call", last, (time.monotonic() - since) / step, host)
            since = time.monotonic()
    host.ask(["release last", "report", "scan"])
    check_report(host.expect(["release last ok -", "scan ok"]), [])


def main():
    parser = argparse.ArgumentParser()
    parser.add_argument("--program", default=ROOT + "/crates/wasmhost/out/wasmhost")
    parser.add_argument("--workers", type=int, default=2)
    parser.add_argument("--cycles", type=int, default=10**6)
    parser.add_argument("--calls", type=int, default=10**5)
    given = parser.parse_args()
    with tempfile.TemporaryDirectory() as folder:
        host = Host(given.program, given.workers, folder)
        host.ask([f"module m {MODULE.hex()}"])
        host.expect(["module m ok"])
        called = run_cycles(host, given.cycles)
        run_calls(host, given.cycles, called, given.calls)
        host.process.stdin.close()
        if host.process.stdout.read() or host.process.wait() != 0:
            sys.exit("it didn't end well")
    print("all as it has to be")


main()
