"""`python3 make.py [COUNT]` writes the tables in `../data`, and what the program is to print and to be given into `../stdout` and
`../args`. COUNT is how many random scripts there are, 1000 if it isn't said."""
import os, sys

import generate, programs, rounds
from modules import POOL

HERE = os.path.dirname(os.path.abspath(__file__))
CRATE = os.path.join(HERE, "..")
SETTINGS, ROUNDS = 40, 200


def long_scripts():
    """Scripts that come to the limits of a host and of an instance, with the model's replies."""
    modules = [f"load m{place} empty" for place in range(1025)] + ["module n 0061736d010000", "load n unknown", "load m0 empty", "load m1024 seven"]
    admit = ["load m seven", "admit a m 1 2 2 0 0 0"]
    queue = admit + ["invoke a f 0"] * 1025 + ["invoke a g 0", "drain", "invoke a f 0"]
    emit = ["load m hosted", "admit a m 1 2 16 0 0 0"] + ["invoke a emit 9 4096 4096"] * 15 + ["invoke a emit 9 0 4089"]
    emit += ["invoke a put 9 1", "invoke a emit 9 0 7", "invoke a emit 9 0 1", "invoke a emit 9 0 0", "invoke a emit 9 0 4097", "drain"]
    echo = ["load m hosted", "admit a m 1 2 16 0 0 0 5 -5", f"invoke a echo {generate.GREATEST} 8193", "drain", "invoke a put 9 1"]
    for name, lines in (("modules", modules), ("queue", queue), ("emit", emit), ("echo", echo)):
        script = generate.Script(0, {"default": {"frames": 1024, "slots": 4096}})
        for line in lines:
            script.say(line)
        yield from generate.table_of(script, name)


def write(name, lines):
    with open(os.path.join(CRATE, name), "w") as out:
        out.write("\n".join(lines) + "\n")


def tally(lines):
    """What the program says of a table, all of whose scripts agree."""
    return sum(line.startswith("script ") for line in lines), sum(line.startswith("<") for line in lines)


def main(count):
    settings = generate.random_settings(SETTINGS)
    given = [f"file {path} {contents.hex()}".rstrip() for path, (contents, _) in POOL.items()]
    given += generate.table_of_settings({**settings, **programs.SETTINGS})
    tables = {
        "given.txt": given,
        "random.txt": generate.scripts(1, count, settings),
        "limits.txt": list(long_scripts()),
        "programs.txt": programs.table(),
        "rounds.txt": rounds.table(1, ROUNDS),
    }
    out, sums = [], [0, 0]
    for name, lines in tables.items():
        write("data/" + name, lines)
        scripts, replies = tally(lines)
        sums = [sums[0] + scripts, sums[1] + replies]
        out.append(f"{name}: {scripts} scripts agree, with {replies} replies; 0 differ")
    out.append(f"{len(tables)} tables: {sums[0]} scripts agree, with {sums[1]} replies; 0 differ")
    write("stdout", out)
    write("args", tables)


if __name__ == "__main__":
    main(int(sys.argv[1]) if len(sys.argv) > 1 else 1000)
