#!/usr/bin/env python3
"""Names that two crates have, where each has to name one thing: words and files of specs/, and public types of src/. Operators are left
out, and of tests and benches all but words."""
import collections, pathlib, re, sys

WORD = re.compile(r"^(?:unfoldable |abbrev )?pub (?:unfoldable |abbrev )?(?:record |data )?([^\s:({]+)")
TYPE = re.compile(r"^pub (?:struct|enum|trait|type) (\w+)", re.M)
# Files of specs/ that each crate may have, since it says this of itself alone.
FILES = {
    "Lib": "which files of definitions it has",
    "Laws": "what holds of its definitions",
    "Parts": "what its values are made of",
    "Stored": "how what contracts see of its values is stored",
    "View": "which values of the definitions its values represent",
}
homes = collections.defaultdict(set)
for path in sorted(pathlib.Path(__file__).resolve().parents[1].glob("crates/*/s*/**/*.*")):
    crate, part = path.parts[path.parts.index("crates") + 1 :][:2]
    named = not crate.startswith(("test_", "bench_"))
    if part == "specs":
        if named and path.stem not in FILES:
            homes["file " + path.stem].add(crate)
        for line in path.read_text().splitlines():
            found = WORD.match(line) or re.match(r"^(?:unfoldable|abbrev) pub ([^\s:({]+)", line)
            if found and found.group(1) not in ("mod", "use") and "◌" not in found.group(1):
                homes[found.group(1)].add(crate)
    elif part == "src" and named:
        for name in TYPE.findall(path.read_text()):
            homes["type " + name].add(crate)
doubles = {name: sorted(crates) for name, crates in homes.items() if len(crates) > 1}
for name, crates in sorted(doubles.items()):
    print(f"{name}: {', '.join(crates)}")
sys.exit(1 if doubles else 0)
