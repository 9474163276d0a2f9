"""The scripts that are tried where memory is refused and calls fail, and what each has to be answered then, by the second model of
scripts (crates/test_sessions/model)."""
import collections, os, sys

ROOT = os.path.dirname(os.path.dirname(os.path.dirname(os.path.abspath(__file__))))
sys.path.insert(0, ROOT + "/crates/test_sessions/model")
from model import Call, Refused, Session

HEAD = "0061736d01000000"
# What stands last on standard error where a thread was refused.
REFUSED_THREADS = b"wasmhost: threads: refused, so that calls ran in one\n"
# What the host says of each module, worked out by hand: `f` gives 7; `f` stores a byte at 0; `s` stores a byte and `l` loads one;
# `s` stores a byte and `w` eight; `f` puts out the word 5; all that a host offers is imported; and four that are refused.
MODULES = {
    "empty": (HEAD, "ok"),
    "seven": (HEAD + "0105016000017f03020100070501016600000a0601040041070b", "ok"),
    "byte": (HEAD + "01050160017f0003020100050301000107050101660000" + "0a0b010900410020003a00000b", "ok"),
    "bytes": (
        HEAD + "010b0260027f7f0060017f017f0303020001050301000107090201730000016c0001" + "0a13020900200020013a00000b070020002d00000b",
        "ok",
    ),
    "wide": (
        HEAD + "010b0260027f7f0060027f7e00030302000105030100010709020173000001770001" + "0a15020900200020013a00000b0900200020013703000b",
        "ok",
    ),
    "put": (HEAD + "01080260017e00600000020c0104686f73740370757400000302010107050101660001" + "0a08010600420510000b", "ok"),
    "imports": (
        HEAD + "010f0360017f017e60017e0060027f7f00023f0504686f73740473616c74037e0004686f737404656d6974000204686f7374"
        "05696e707574000004686f73740462617365037f0004686f7374037075740001",
        "ok",
    ),
    "cut": ("0061736d010000", "refused D3 at 7"),
    "typed": (HEAD + "0105016000017f030201000a0e010c00027f41010c0042006a0b0b", "refused V1 func 0 instr 4"),
    "twice": (HEAD + "01040160000003020100070d030161000001620000016100000a040102000b", "refused V6 module"),
    "other": (HEAD + "0105016000017e02190204686f73740462617365037f0004686f7374037075740000", "refused L2 import 1"),
}

Case = collections.namedtuple("Case", "name settings workers pairs script")
CASES = [
    Case("a call", {}, 1, True, "module m {seven}\nadmit a m 100 2 16 0 0 0\ninvoke a f 0\ninvoke a g 0\ninvoke a f 0 5\n"),
    Case(
        "modules",
        {},
        4,
        False,
        "module a {empty}\nmodule b {seven}\nmodule c {cut}\nmodule b {seven}\nmodule d 00g0\nnothing\nmodule e {imports}\n"
        "module f {typed}\nmodule g {twice}\nmodule h {other}\n",
    ),
    Case(
        "pages that are shared",
        {},
        4,
        False,
        "module m {byte}\nadmit a m 100 2 16 0 0 0\nadmit b m 100 2 16 0 0 0\nadmit c m 100 2 16 0 0 0\ninvoke a f 9 1\n"
        "invoke b f 9 1\ninvoke c f 9 1\nscan\nreport\ninvoke a f 9 2\nreport\ninvoke a f 9 1\nscan\nreport\n",
    ),
    Case(
        "minima",
        {"frames": 8, "slots": 64},
        4,
        False,
        "module m {seven}\nadmit a m 100 4 16 0 0 0\nadmit b m 100 4 16 0 0 0\nadmit c m 100 2 16 0 0 0\nrelease a\n"
        "admit d m 100 2 16 0 0 0\n",
    ),
    Case(
        "pages that leave",
        {"frames": 2, "slots": 15},
        4,
        False,
        "module m {bytes}\nadmit a m 100 2 16 0 0 0\ninvoke a s 9 0 1\ninvoke a s 9 4096 2\ninvoke a s 9 8192 3\ninvoke a l 9 0\n",
    ),
    # Where the first admission leaves nothing behind the second one has its frames, its slots and its number.
    Case(
        "page tables",
        {"frames": 2, "slots": 65535},
        1,
        False,
        "module m {byte}\nadmit a m 100 2 65536 0 0 0\nadmit b m 100 2 65536 0 0 0\nrelease a\nadmit c m 100 2 257 0 0 0\nrelease c\n"
        "admit d m 100 2 256 0 0 0\n",
    ),
    Case("output", {}, 4, False, "module m {put}\nadmit a m 100 2 16 0 0 0\ninvoke a f 9\nrelease a\n"),
    Case(
        "all of it",
        {"frames": 4, "slots": 64, "tax_num": 0, "tax_den": 1, "swap": "pages"},
        3,
        False,
        "module m {bytes}\nmodule n {put}\nadmit a m 100 2 16 9 0 0\nadmit b m 100 2 16 9 0 0\ninvoke a s 3 0 1\n"
        "invoke a s 3 4096 2\ninvoke a s 3 8192 7\ninvoke a s 3 12288 8\ninvoke b s 3 0 1\ninvoke b s 1 8192 3\nscan\nrefuel b 2\ninvoke b l 2 0\ninvoke a l 2 4096\nreport\n"
        "release a\nadmit c n 1 2 2 0 0 0\ninvoke c f 1\ninvoke c f 0\ncancel c\nrelease c\nretry b\n",
    ),
]


class Hindered(Session):
    """A session some of whose lines find no memory (by the number of the line, what is answered then), and some of whose calls
    meet faults of the swap device (by their names)."""

    def __init__(self, case, files=None, wanting=None, faults=None):
        verdicts = {bytes.fromhex(digits): verdict for digits, verdict in MODULES.values()}
        super().__init__(case.settings.get("frames", 1024), case.settings.get("slots", 4096), files or {}, verdicts)
        self.wanting, self.faults = wanting or {}, dict(faults or {})

    def obey(self, text):
        code = self.wanting.get(self.number)
        if code is None:
            return super().obey(text)
        if code == "C5":
            raise Refused(code)
        words = text.decode().split(" ")
        if words[0] != "invoke":
            self.drain()
            self.out.append(f"{words[0]} {words[1]} refused {code}")
            return
        self.count += 1
        call = Call(f"call {self.count}", None, [], 0)
        call.ending = f"refused {code}"
        self.calls.append(call)


def answers(case, lines, is_whole=True, **hindrances):
    """What the lines of a script are answered, and if they are all of it, what stands behind them. Lines that begin with # are
    left out. What hinders them is as of `Hindered`."""
    session = Hindered(case, **hindrances)
    return [reply for line in lines for reply in session.line(line.encode())] + (session.end() if is_whole else [])


def digits():
    """The modules by their names, as scripts write them."""
    return {name: text for name, (text, _) in MODULES.items()}


def told(output):
    """The lines of a program's output that don't begin with #."""
    return [line for line in output.decode().splitlines() if not line.startswith("#")]
