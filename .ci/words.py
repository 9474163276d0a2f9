#!/usr/bin/env python3
"""Words of the past that have given way to the field's: refuses them in code and proofs, in code spans of pages, and some in comments and
pages."""
import pathlib, re, sys

OLD = set("""
    Awake BlankPact Bond Crew Desk Engine Enrolled EnrolledModule Fittings Guest Half Inlet Keeper Lender LoadWant Made Manner Matter
    Means Outlet Pace Pact Patience Reception Resident Roster Seat Slip Staff Standby StandsByEvents StandsDuly StandsForFrame
    StandsForHost StandsForScript StandsRightly TakenOn Ties TurnedDown TurnsDownModule Upper
    engine_on fittings guest guests nothing_made roster said scarce stands_for stint taken_on turned_down
""".split())
# Phrases for which the field has a word: instance, without progress, written back, run, unshared, predicted.
PAST = re.compile(r"\b(guests?|in vain|laid back|br(?:ought|ings?) (?:it |them |the instance )?on|broken off|foretold)\b", re.I)
SPAN = re.compile(r"`[^`\n]+`")
ROOT = pathlib.Path(__file__).resolve().parents[1]


def parts(path):
    """The code of a file, texts left out, and its comments; of a page its code spans, and all of it."""
    text = path.read_text()
    if path.suffix == ".md":
        return " ".join(SPAN.findall(text)), text
    comments = re.findall(r"(?://|--).*", text)
    return re.sub(r"//.*|--.*|\"(?:[^\"\\\n]|\\.)*\"", "", text), "\n".join(comments)


found = 0
for pattern in ("crates/*/*/**/*.rt", "crates/*/*/**/*.antt", "crates/*/README.md", "docs/**/*.md", "README.md"):
    for path in sorted(ROOT.glob(pattern)):
        name = path.relative_to(ROOT)
        if name.parts[0] != "crates" or not name.parts[1].startswith("test_") and "out" not in name.parts:
            code, said = parts(path)
            words = OLD & set(re.findall(r"[A-Za-z_]\w*", code)) | {phrase[1] for phrase in PAST.finditer(said)}
            for word in sorted(words):
                print(f"{name}: {word}")
                found += 1
sys.exit(1 if found else 0)
