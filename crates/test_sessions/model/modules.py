"""The small modules that random scripts load: an assembler of a few lines, and the pool, each module with what the host has to
say of it. What is refused is so by a fault that was worked out by hand."""
import os, sys

sys.path.insert(0, os.path.join(os.path.dirname(os.path.abspath(__file__)), "..", "..", "test_machine", "programs"))
from wasm import signed, unsigned, vector

HEAD = b"\0asm\1\0\0\0"
KINDS = {"i": 0x7F, "l": 0x7E}  # An i32 and an i64, in types written as "il>l".
NAMES = {"i": "i32", "l": "i64"}


def opcodes():
    """The codes of instructions by their names: those without immediates, with one index, and with an offset."""
    plain = {"unreachable": 0, "nop": 1, "else": 5, "end": 11, "return": 15, "drop": 26, "select": 27}
    compare = "eq ne lt_s lt_u gt_s gt_u le_s le_u ge_s ge_u".split()
    binary = "add sub mul div_s div_u rem_s rem_u and or xor shl shr_s shr_u rotl rotr".split()
    for kind, zero, count, first in (("i32", 0x45, 0x67, 0x6A), ("i64", 0x50, 0x79, 0x7C)):
        plain[kind + ".eqz"] = zero
        plain.update({f"{kind}.{name}": zero + 1 + place for place, name in enumerate(compare)})
        plain.update({f"{kind}.{name}": count + place for place, name in enumerate(("clz", "ctz", "popcnt"))})
        plain.update({f"{kind}.{name}": first + place for place, name in enumerate(binary)})
    plain.update({"wrap": 0xA7, "extend_s": 0xAC, "extend_u": 0xAD})
    indexed = {"br": 12, "br_if": 13, "call": 16, "get": 0x20, "set": 0x21, "tee": 0x22, "gget": 0x23, "gset": 0x24}
    access = {"i32.load": 0x28, "i64.load": 0x29, "i32.load8_s": 0x2C, "i32.load8_u": 0x2D, "i64.load32_u": 0x35}
    access.update({"i32.store": 0x36, "i64.store": 0x37, "i32.store8": 0x3A, "i32.store16": 0x3B, "i64.store16": 0x3D})
    return plain, indexed, access


PLAIN, INDEXED, ACCESS = opcodes()
BLOCKS = {"block": 2, "loop": 3, "if": 4}


def assemble(text):
    """The bytes of instructions, the last `end` left out; a number behind an access is its offset."""
    out, words = b"", text.split()
    while words:
        word = words.pop(0)
        if word in PLAIN:
            out += bytes([PLAIN[word]])
        elif word in INDEXED:
            out += bytes([INDEXED[word]]) + unsigned(int(words.pop(0)))
        elif word in ACCESS:
            out += bytes([ACCESS[word], 0]) + unsigned(int(words.pop(0)))
        elif word in BLOCKS:
            out += bytes([BLOCKS[word], KINDS.get(words[0], 0x40)])
            words = words[1:] if words[0] in KINDS else words
        elif word in ("i32.const", "i64.const"):
            out += bytes([0x41 if word[1] == "3" else 0x42]) + signed(int(words.pop(0)))
        elif word == "call_indirect":
            out += b"\x11" + unsigned(int(words.pop(0))) + b"\0"
        elif word == "br_table":
            labels = words.pop(0).split(",")
            out += b"\x0e" + vector([unsigned(int(label)) for label in labels[:-1]]) + unsigned(int(labels[-1]))
        else:
            assert word in ("size", "grow"), word
            out += (b"\x3f" if word == "size" else b"\x40") + b"\0"
    return out + b"\x0b"


def named(name):
    return unsigned(len(name.encode())) + name.encode()


def kinds(letters):
    return vector([bytes([KINDS[letter]]) for letter in letters])


class Build:
    """A module in the making. Types are numbered as they are met."""

    def __init__(self):
        self.types, self.imports, self.functions, self.bodies, self.exports = [], [], [], [], []
        self.memory = self.table = self.first = None
        self.globals, self.elements, self.data, self.signatures = [], [], [], {}
        self.imported = 0

    def type(self, text):
        if text not in self.types:
            self.types.append(text)
        return self.types.index(text)

    def bring(self, name, text):
        """An import: of a function of this type, or of a const global."""
        head = named("host") + named(name)
        if ">" in text:
            self.imports.append(head + b"\0" + unsigned(self.type(text)))
            self.imported += 1
        else:
            self.imports.append(head + b"\3" + bytes([KINDS[text], 0]))
        return self

    def function(self, name, text, code, own=""):
        """A function with these locals of its own, exported under a name if it has one."""
        index = self.imported + len(self.functions)
        self.functions.append(unsigned(self.type(text)))
        contents = vector([b"\1" + bytes([KINDS[letter]]) for letter in own]) + assemble(code)
        self.bodies.append(unsigned(len(contents)) + contents)
        if name:
            self.signatures[name] = text
            self.export(name, 0, index)
        return self

    def export(self, name, kind, index):
        self.exports.append(named(name) + bytes([kind]) + unsigned(index))
        return self

    def variable(self, kind, way, code):
        self.globals.append(bytes([KINDS[kind], way]) + assemble(code))
        return self

    def at(self, code, contents):
        """A data segment."""
        self.data.append(b"\0" + assemble(code) + vector([bytes([byte]) for byte in contents]))
        return self

    def members(self, code, functions):
        """An element segment."""
        self.elements.append(b"\0" + assemble(code) + vector([unsigned(index) for index in functions]))
        return self

    def limits(self, bounds):
        return bytes([len(bounds) - 1]) + b"".join(unsigned(bound) for bound in bounds)

    def spelled(self):
        out = HEAD
        spelled_types = [b"\x60" + kinds(text.split(">")[0]) + kinds(text.split(">")[1]) for text in self.types]
        for number, items in (
            (1, spelled_types), (2, self.imports), (3, self.functions),
            (4, [] if self.table is None else [b"\x70" + self.limits(self.table)]),
            (5, [] if self.memory is None else [self.limits(self.memory)]),
            (6, self.globals), (7, self.exports), (8, self.first), (9, self.elements), (10, self.bodies), (11, self.data),
        ):
            if items or (number == 8 and items is not None):
                contents = unsigned(items) if number == 8 else vector(items)
                out += bytes([number]) + unsigned(len(contents)) + contents
        return out


def with_memory(*bounds):
    build = Build()
    build.memory = bounds
    return build


def spin():
    return Build().function("f", ">", "loop br 0 end").function("g", "i>i", "get 0 i32.const 1 i32.add")


def pages():
    """Single bytes and words, many pages at once, growth."""
    build = with_memory(1)
    build.function("set", "ii>", "get 0 get 1 i32.store8 0").function("get", "i>i", "get 0 i32.load8_u 0")
    build.function("word", "il>", "get 0 get 1 i64.store 0").function("read", "i>l", "get 0 i64.load 0")
    build.function(
        "fill", "iii>",
        "block loop get 1 i32.eqz br_if 1 get 0 get 2 i32.store 0 get 0 i32.const 4096 i32.add set 0"
        " get 1 i32.const 1 i32.sub set 1 br 0 end end",
    )
    build.function(
        "sum", "ii>l",
        "block loop get 1 i32.eqz br_if 1 get 2 i64.const 31 i64.mul get 0 i64.load 0 i64.add set 2"
        " get 0 i32.const 4096 i32.add set 0 get 1 i32.const 1 i32.sub set 1 br 0 end end get 2", "l",
    )
    build.function("grow", "i>i", "get 0 grow").function("size", ">i", "size")
    build.function(
        "copy", "iii>",
        "block loop get 2 i32.eqz br_if 1 get 1 get 0 i64.load 0 i64.store 0 get 0 i32.const 8 i32.add set 0"
        " get 1 i32.const 8 i32.add set 1 get 2 i32.const 1 i32.sub set 2 br 0 end end",
    )
    return build


def started():
    """Segments over the end of a page, an empty one, one over another; a start function that sums in a loop, 5 times."""
    build = with_memory(1, 3)
    build.at("i32.const 4094", b"\1\2\3").at("i32.const 9", b"").at("i32.const 4095", b"\7").at("i32.const 12280", bytes(range(17)))
    build.variable("i", 1, "i32.const 5").variable("l", 1, "i64.const -1")
    build.function(
        None, ">",
        "loop gget 1 gget 0 extend_s i64.add gset 1 gget 0 i32.const 4096 i32.mul gget 1 i64.store 0"
        " gget 0 i32.const 1 i32.sub gset 0 gget 0 br_if 0 end",
    )
    build.first = 0
    build.function("get", "i>i", "get 0 i32.load8_u 0").function("read", "i>l", "get 0 i64.load 0")
    build.function("sum", ">l", "gget 1").function("grow", "i>i", "get 0 grow")
    return build


def trapping():
    """The start function stores, divides by its own store less 3 and traps; so it does at each instance."""
    build = with_memory(1)
    build.function(None, ">", "i32.const 8 i32.const 3 i32.store 0 i32.const 1 i32.const 8 i32.load 0 i32.const 3 i32.sub i32.div_u drop")
    build.first = 0
    return build.function("f", ">i", "i32.const 8 i32.load 0")


def waiting():
    """The start function goes on for ever."""
    build = with_memory(1)
    build.function(None, ">", "loop i32.const 0 i32.const 0 i32.load 0 i32.const 1 i32.add i32.store 0 br 0 end")
    build.first = 0
    return build.function("f", ">i", "i32.const 0 i32.load 0").at("i32.const 0", b"\x0a")


def placed():
    """Data where `base` says; a table with a part at 1."""
    build = with_memory(1).bring("base", "i")
    build.table = (4,)
    build.at("gget 0", b"\x11\x22\x33\x44").members("i32.const 1", [0, 2])
    build.function("seven", ">i", "i32.const 7").function("base", ">i", "gget 0").function("neg", "i>i", "i32.const 0 get 0 i32.sub")
    build.function("pick", "i>i", "get 0 call_indirect 0").function("turn", "ii>i", "get 1 get 0 call_indirect 1")
    return build.function("load", "i>i", "get 0 i32.load 0").function("drop", "i>i", "i32.const 9 get 0 br_table 0,0")


def listed():
    """Elements where `base` says."""
    build = Build().bring("base", "i")
    build.table = (3, 5)
    build.members("gget 0", [0, 1])
    build.function("one", ">i", "i32.const 1").function("two", ">i", "i32.const 2")
    return build.function("pick", "i>i", "get 0 call_indirect 0")


def hosted():
    """All that the host offers."""
    build = with_memory(1)
    build.bring("input", "i>l").bring("put", "l>").bring("emit", "ii>").bring("salt", "l").bring("base", "i")
    build.at("i32.const 65530", b"abcdef")
    build.function("in", "i>l", "get 0 call 0").function("put", "l>", "get 0 call 1")
    build.function("emit", "ii>", "get 0 get 1 call 2").function("salt", ">l", "gget 0 gget 1 extend_u i64.xor")
    build.function(
        "echo", "i>i",
        "block loop get 1 get 0 i32.ge_s br_if 1 get 1 call 0 call 1 get 1 i32.const 1 i32.add set 1 br 0 end end get 1", "i",
    )
    build.function("set", "ii>", "get 0 get 1 i32.store 0")
    return build.export("raw", 0, 1).export("mem", 2, 0).export("g", 3, 0)


def deep():
    """Recursion to a depth, and without end."""
    build = with_memory(1, 1)
    build.function("f", ">", "i32.const 0 i32.const 0 i32.load 0 i32.const 1 i32.add i32.store 0 call 0")
    build.function("load", ">i", "i32.const 0 i32.load 0")
    build.function("down", "i>i", "get 0 if i get 0 i32.const 1 i32.sub call 2 i32.const 1 i32.add else i32.const 0 end")
    build.function("even", "i>i", "get 0 i32.eqz if i i32.const 1 else get 0 i32.const 1 i32.sub call 4 end")
    build.function("odd", "i>i", "get 0 i32.eqz if i i32.const 0 else get 0 i32.const 1 i32.sub call 3 end")
    build.function("fib", "i>l", "get 0 i32.const 2 i32.lt_s if l get 0 extend_s else get 0 i32.const 1 i32.sub call 5 get 0 i32.const 2 i32.sub call 5 i64.add end")
    return build


def wide():
    """Arguments and results of both types."""
    build = Build()
    for name in ("add", "mul", "div_s", "rem_s", "div_u", "rotl", "shr_s"):
        build.function(name, "ll>l", f"get 0 get 1 i64.{name}").function(name + "32", "ii>i", f"get 0 get 1 i32.{name}")
    build.function("id", "l>l", "get 0").function("id32", "i>i", "get 0").function("less", "ll>i", "get 0 get 1 i64.lt_s")
    build.function("mix", "ili>l", "get 1 get 0 extend_s i64.mul get 2 extend_u i64.add").function("low", "l>i", "get 0 wrap")
    return build.function("none", ">", "").function("no", "i>", "unreachable").function("pick", "lli>l", "get 0 get 1 get 2 select")


def kept():
    """Globals, those that the host gives among them."""
    build = Build().bring("base", "i").bring("salt", "l")
    build.variable("i", 1, "gget 0").variable("l", 1, "gget 1").variable("l", 0, "i64.const 77")
    build.function("add", "i>i", "gget 2 get 0 i32.add gset 2 gget 2").function("swap", "l>l", "gget 3 get 0 gset 3")
    build.function("count", "i>l", "loop gget 3 gget 4 i64.add gset 3 get 0 i32.const 1 i32.sub tee 0 br_if 0 end gget 3")
    return build.function("", ">i", "gget 2").function("a.b-c/1", ">i", "gget 2").function("-1", ">l", "gget 3").function("\u00e4", ">i", "gget 2")


def filled():
    """Data and no start function; two pages; growth by one more."""
    build = with_memory(2, 3)
    build.at("i32.const 8190", b"\xff" * 6).at("i32.const 65534", b"\x09\x08\x07\x06").at("i32.const 131072", b"")
    build.function("get", "i>i", "get 0 i32.load8_u 0").function("word", "il>", "get 0 get 1 i64.store 0")
    build.function("read", "i>l", "get 0 i64.load 0").function("grow", "i>i", "get 0 grow")
    return build.function("drop", "ii>i", "get 0 i32.load 65535 get 1 i32.add")


def blank():
    """One segment, which is empty and at the end: nothing is to be written."""
    return with_memory(1).at("i32.const 65536", b"").function("f", ">i", "size").function("b", "i>i", "get 0 i32.load 0")


def beyond():
    """A segment that passes the memory, at every instance."""
    return with_memory(1).at("i32.const 65535", b"\1\2").function("f", ">i", "size")


def bytes_of(text):
    return bytes.fromhex(text)


# A module by its path: its bytes and the host's answer.
BUILT = {
    "spin": spin(), "pages": pages(), "started": started(), "trapping": trapping(), "waiting": waiting(), "placed": placed(),
    "listed": listed(), "hosted": hosted(), "deep": deep(), "wide": wide(), "kept": kept(), "filled": filled(),
    "blank": blank(), "beyond": beyond(),
}
SEVEN = "0061736d010000000105016000017f03020100070501016600000a0601040041070b"
POOL = {name: (build.spelled(), "ok") for name, build in BUILT.items()}
POOL.update({
    "seven": (bytes_of(SEVEN), "ok"),
    "empty": (HEAD, "ok"),
    "nothing": (b"", "refused D3 at 0"),
    "cut": (HEAD[:7], "refused D3 at 7"),
    "magic": (b"\0asn" + HEAD[4:], "refused D1 at 3"),
    "second": (b"\0asm\2\0\0\0", "refused D2 at 4"),
    "disorder": (HEAD + bytes_of("030100010100"), "refused D4 at 11"),
    "short": (HEAD + bytes_of("010200"), "refused D5 at 11"),
    "long": (bytes_of(SEVEN[:-16] + "0a0a01080041ffffffff0f0b"), "refused D6 at 36"),
    "latin": (HEAD + bytes_of("000302c328"), "refused D7 at 11"),
    "later": (HEAD + bytes_of("0c00"), "refused D8 at 8"),
    "float": (bytes_of(SEVEN.replace("017f0302", "017d0302")), "refused D9 at 14"),
    "many": (HEAD + bytes_of("0105ffffffff0f"), "refused D11 at 10"),
    "bodiless": (HEAD + bytes_of("03020100"), "refused D12 at 12"),
    "tight": (bytes_of(SEVEN[:-16] + "0a0d010b00027f41010c0042006a0b0b"), "refused D5 at 41"),
    "typed": (bytes_of(SEVEN[:-16] + "0a0e010c00027f41010c0042006a0b0b"), "refused V1 func 0 instr 4"),
    "double": (HEAD + bytes_of("0104016000000302010007090201660000016600000a040102000b"), "refused V6 module"),
    "memories": (HEAD + bytes_of("05050200000000"), "refused V8 module"),
    "unknown": (HEAD + bytes_of("0105016000017f02090103656e7601780000"), "refused L1 import 0"),
    "mistyped": (HEAD + bytes_of("0106") + bytes_of("0160017f017f") + bytes_of("020e0104686f737405696e7075740000"), "refused L2 import 0"),
})
