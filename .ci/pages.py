#!/usr/bin/env python3
"""Says which relative links and anchors of the pages lead nowhere, where they miscount the edits that the prover refuses, which
sentences of the guide on faults the library doesn't say so, and whether the pages have more words than they may."""
import collections
import pathlib
import re
import subprocess
import sys

root = pathlib.Path(__file__).resolve().parent.parent
MOST_WORDS = 42000
LINK = re.compile(r"\[[^\]]*\]\(([^)\s]+)\)")
HEADING = re.compile(r"#{1,6} +(.*)")


def tracked():
    """The files of the repository, with their folders, by their paths from its root."""
    command = ["git", "-c", "safe.directory=*", "ls-files"]
    names = subprocess.run(command, cwd=root, stdout=subprocess.PIPE, text=True, check=True).stdout.split("\n")
    files = {pathlib.PurePosixPath(name) for name in names if name}
    return files, files | {folder for file in files for folder in file.parents}


def prose(page):
    """The lines of a page outside of its blocks of code."""
    inside = False
    for line in (root / page).read_text().split("\n"):
        if line.startswith("```"):
            inside = not inside
        elif not inside and not line.startswith("    "):
            yield line


def anchors(page):
    """The anchors of a page's headings, as they are made of their texts; the second of one text has -1 behind it."""
    found = {}
    for line in prose(page):
        heading = HEADING.fullmatch(line)
        if heading:
            text = re.sub(r"\[([^\]]*)\]\([^)]*\)", r"\1", heading[1]).strip().lower()
            anchor = re.sub(r"[^\w\- ]", "", text).replace(" ", "-")
            times = found[anchor] = found.get(anchor, -1) + 1
            yield f"{anchor}-{times}" if times else anchor


def goal_of(page, path):
    """What a relative path means in a page, from the root of the repository; None where it leaves that."""
    parts = list(page.parent.parts)
    for part in pathlib.PurePosixPath(path).parts:
        if part != "..":
            parts.append(part)
        elif not parts:
            return None
        else:
            parts.pop()
    return pathlib.PurePosixPath(*parts)


def faults_of(page, known):
    """The links of a page that lead nowhere."""
    for line in prose(page):
        for link in LINK.findall(re.sub(r"`[^`]*`", "", line)):
            if re.match(r"[a-z]+:", link):
                continue
            path, _, anchor = link.partition("#")
            goal = goal_of(page, path) if path else page
            if goal not in known:
                yield f"{page}: {link} leads to no file"
            elif anchor and (goal.suffix != ".md" or anchor not in anchors(goal)):
                yield f"{page}: {link} leads to no heading"


def miscounts(files):
    """Where the pages say another number of edits than there are."""
    edits = [file.parts[1:3] for file in files if file.match("crates/*/*/*.edit")]
    kinds = collections.Counter(kind for _, kind in edits)
    of = collections.Counter(crate for crate, kind in edits if kind != "edits-of-definitions")
    gate, bodies = kinds["must-fail"], sum(of.values())
    said = {
        "README.md": [f" {gate} edits"],
        "docs/proved.md": [f" {bodies} in all, {gate} of them tried by the gate"],
        "docs/testing.md": [f"{bodies} wrong bodies"] + [f" {kinds[kind]} in `crates/*/{kind}`" for kind in ("must-fail", "edits-by-hand")]
        + [f" {kinds['edits-of-definitions']} more, in `crates/*/edits-of-definitions`"],
    }
    yield from (f"{page} lacks {words!r}" for page in said for words in said[page] if words not in (root / page).read_text())
    for cell in re.findall(r"\| ([^|]*) \|$", (root / "docs/proved.md").read_text(), re.M):
        of.subtract({crate: int(count) for crate, count in re.findall(r"`(\w+)` (\d+)", cell)})
    yield from (f"docs/proved.md: {-left:+} edits of {crate}" for crate, left in of.items() if left)


def other_sentences():
    """The faults that the guide explains in other words than the library does. Of L3 the library says what it says of D13."""
    said = set(re.findall(r'^    "(.*)",$', (root / "crates/wolqedir/src/texts.rt").read_text(), re.M))
    for page, line in ((page, line) for page in ("docs/guide/script.md", "docs/guide/library.md") for line in prose(page)):
        cells = [cell.strip() for cell in line.strip().strip("|").split("|")]
        for name, text in zip(cells, cells[1:]):
            plain = re.sub(r"\[([^\]]*)\]\([^)]*\)", r"\1", text).replace("`", "")
            if name != "L3" and re.fullmatch(r"[DVLATHSF]\d+", name) and plain not in said:
                yield f"{page}: {name}: the library has no sentence {plain!r}"


def is_counted(page):
    """Whether the page is one of docs, or that of a crate."""
    return page.parts[0] == "docs" or page.match("crates/*/README.md") and len(page.parts) == 3


def main():
    files, known = tracked()
    pages = sorted(file for file in files if file.suffix == ".md")
    faults = [fault for page in pages for fault in faults_of(page, known)] + list(miscounts(files)) + list(other_sentences())
    words = sum(len((root / page).read_text().split()) for page in pages if is_counted(page))
    if words > MOST_WORDS:
        faults.append(f"the pages have {words} words, more than {MOST_WORDS}")
    for fault in faults:
        print(fault)
    return 1 if faults else 0


sys.exit(main())
