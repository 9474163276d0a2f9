"""The crates of the repository, and how the prover is told of one: over the libraries that `rt ci` left in the crates' folders."""
import functools
import os
import re
import shutil

ROOT = os.path.dirname(os.path.dirname(os.path.abspath(__file__)))
KIT = os.path.dirname(os.path.dirname(os.path.realpath(shutil.which("rt"))))
RATTLE = os.path.join(KIT, "bin", "rattle")


@functools.lru_cache(maxsize=None)
def crates():
    """Which crates each crate uses, by crates.txt; those of the toolchain have no line."""
    with open(os.path.join(ROOT, "crates.txt")) as file:
        rows = [re.match(r"(\w+)(?: staticlib)?:(.*)$", line) for line in file]
    return {row[1]: row[2].split() for row in rows if row}


@functools.lru_cache(maxsize=None)
def below(name):
    """The repository's crates beneath this one, those used first."""
    found = []
    for used in crates()[name]:
        if used in crates():
            found += [crate for crate in [*below(used), used] if crate not in found]
    return tuple(found)


def folder_of(name):
    return os.path.join(ROOT, "crates", name)


def library(name):
    """Where `rt ci` and `rt lib` leave the library of a crate."""
    return os.path.join(folder_of(name), "out", "rlib", name + ".rlib")


def files(name, *parts):
    """The files of these folders of a crate, in order."""
    found = []
    for part in parts:
        for at, folders, names in os.walk(os.path.join(folder_of(name), part)):
            folders.sort()
            found += [os.path.join(at, file) for file in sorted(names)]
    return found


def words(name):
    """What the prover is told of a crate: its root file and the libraries beneath it."""
    root = "src/main.rt" if os.path.exists(os.path.join(folder_of(name), "src", "main.rt")) else "src/lib.rt"
    told = ["--crate-name", name, root]
    for used in ["std", *crates()[name]]:
        told += ["--extern", f"{used}={library(used) if used in crates() else f'{KIT}/rlibs/{used}.rlib'}"]
    for folder in [KIT + "/rlibs", *(os.path.dirname(library(used)) for used in below(name))]:
        told += ["-L", "dependency=" + folder]
    told += ["--antt-project", KIT + "/rattle/logic/antt-project.json", "--logic-built", KIT + "/logic_built"]
    return [*told, "--links", name + "="]
