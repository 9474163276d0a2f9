"""The archive libwolqedir.a. `rt ci` proves its crate and makes no archive; `rt lib` makes one, and proves first all that lies
beneath, since it takes nothing of what `rt ci` left. So it is made here of the libraries that `rt ci` left in the crates' folders,
and kept beside the toolchain, under the sum of all that it was made of, for runs in which `rt ci` has nothing to prove."""
import hashlib
import os
import shutil
import subprocess
import sys

sys.path.insert(0, os.path.dirname(os.path.dirname(os.path.abspath(__file__))))
from crates import KIT, RATTLE, ROOT, below, crates, files, folder_of, library, words

KEPT = KIT + "-archives"
CRATE = "wolqedir"


def key():
    """The sum of all that the archive is made of."""
    told = subprocess.run(["rt", "version"], stdout=subprocess.PIPE, check=True).stdout
    made = hashlib.sha256(told)
    for name in [*below(CRATE), CRATE]:
        made.update(repr((name, crates()[name])).encode())
        for path in files(name, "proofs", "specs", "src"):
            with open(path, "rb") as source:
                made.update(repr((os.path.relpath(path, ROOT), source.read())).encode())
    return made.hexdigest()


def build(to):
    """Makes the archive over the libraries beneath; its own crate is proved once more."""
    how = ["--jobs", "2", "--crate-type", "staticlib", "--toolchain", KIT + "/toolchain", "--backend", "llvm", "-o", to]
    subprocess.run([RATTLE, "build", *words(CRATE), *how], cwd=folder_of(CRATE), check=True)


def keep(archive, kept):
    """Keeps the archive, where there is room and right for it."""
    try:
        os.makedirs(KEPT, mode=0o700, exist_ok=True)
        shutil.copy(archive, kept + ".part")
        os.replace(kept + ".part", kept)
    except OSError:
        pass


def archive():
    """The path of the archive: one that was kept, or a new one."""
    kept = os.path.join(KEPT, key() + ".a")
    if os.path.exists(kept):
        return kept
    made = os.path.join(folder_of(CRATE), "out", f"lib{CRATE}.a")
    if all(os.path.isdir(library(name)) for name in below(CRATE)):
        build(made)
    else:
        subprocess.run(["rt", "lib"], cwd=folder_of(CRATE), check=True)
    keep(made, kept)
    return made
