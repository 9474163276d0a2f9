"""`python3 kinds.py TABLE` counts the replies that a table wants, by their kinds."""
import collections, re, sys


def kind(line):
    words = line.split()
    if words[0] == "error":
        return " ".join(words[:2])
    if words[0] in ("call", "start"):
        return " ".join([words[0], *(word for word in words[2:4] if word != "charges" and not re.fullmatch("-?[0-9]+", word))])
    return " ".join([words[0], *words[2:4]]) if words[2:3] == ["refused"] else " ".join([words[0], "ok"])


counts = collections.Counter(kind(line[1:]) for line in open(sys.argv[1]) if line.startswith("<"))
for name, count in sorted(counts.items()):
    print(f"{count:6} {name}")
