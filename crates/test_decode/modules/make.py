#!/usr/bin/env python3
"""Writes ../stdin and ../stdout: the cases of cases.txt, and the modules of *.wat as other tools make them, with what
wasm-objdump says of each. README.md says how."""
import glob, os, re, subprocess, tempfile

HD = "0061736d01000000"
LEAST = ["--disable-reference-types", "--disable-bulk-memory"]
KINDS = {"func": "Func", "table": "Table", "memory": "Memory", "global": "Global"}
UNARY = {
    "clz": "Clz", "ctz": "Ctz", "popcnt": "Popcnt",
    "extend8_s": "Extend8S", "extend16_s": "Extend16S", "extend32_s": "Extend32S",
}
BINARY = {
    "add": "Add", "sub": "Sub", "mul": "Mul", "div_s": "DivS", "div_u": "DivU", "rem_s": "RemS", "rem_u": "RemU",
    "and": "And", "or": "Or", "xor": "Xor", "shl": "Shl", "shr_s": "ShrS", "shr_u": "ShrU", "rotl": "Rotl", "rotr": "Rotr",
}
COMPARE = {
    "eq": "Eq", "ne": "Ne", "lt_s": "LtS", "lt_u": "LtU", "gt_s": "GtS", "gt_u": "GtU", "le_s": "LeS", "le_u": "LeU",
    "ge_s": "GeS", "ge_u": "GeU",
}
PLAIN = {
    "unreachable": "Unreachable", "nop": "Nop", "else": "Else", "end": "End", "return": "Return", "drop": "Drop",
    "select": "Select", "memory.size": "MemorySize", "memory.grow": "MemoryGrow",
    "i32.wrap_i64": "Convert(WrapI64)", "i64.extend_i32_s": "Convert(ExtendI32S)", "i64.extend_i32_u": "Convert(ExtendI32U)",
}
INDEXED = {
    "br": "Br", "br_if": "BrIf", "call": "Call", "local.get": "LocalGet", "local.set": "LocalSet", "local.tee": "LocalTee",
    "global.get": "GlobalGet", "global.set": "GlobalSet",
}


def leb(n):
    out = ""
    while n > 127:
        out, n = out + f"{n % 128 + 128:02x}", n // 128
    return out + f"{n:02x}"


def length(word):
    if ".." in word:
        return 1
    digits, _, times = word.partition("*")
    assert len(digits) % 2 == 0 and re.fullmatch("[0-9a-f]*", digits), word
    return len(digits) // 2 * int(times or 1)


def sized(words, top=True):
    """The words up to a closing brace, with sizes in the place of the braces, and where the mark is."""
    out, place, mark = [], 0, None
    while words:
        word = words.pop(0)
        if word == "}":
            assert not top
            break
        if word == "{":
            inner, size, at = sized(words, False)
            out += [leb(size)] + inner
            if at is not None:
                mark = place + len(leb(size)) // 2 + at
            place += len(leb(size)) // 2 + size
        elif word == "^":
            mark = place
        else:
            out.append(word)
            place += length(word)
    return out, place, mark


def by_hand():
    lines, count = [], 0
    for line in open("cases.txt"):
        line = line.rstrip("\n")
        if "|" not in line:
            lines.append(line)
            continue
        if line.startswith("#"):
            continue
        name, expected, module = (it.strip() for it in line.split("|"))
        words = re.sub(r"([{}^])", r" \1 ", module.replace("HD", HD)).split()
        words, size, mark = sized(words)
        assert (mark is not None) == ("^" in expected), name
        if mark is not None:
            expected = expected.replace("^", str(mark))
        of_range = [it for it in words if ".." in it]
        assert len(of_range) < 2, name
        cases = int(of_range[0][4:], 16) - int(of_range[0][:2], 16) + 1 if of_range else 1
        count += cases * (size + 1 if expected.startswith("cuts") else 1)
        lines.append(f"{name} | {expected} | {' '.join(words)}")
    return [it for it in lines if not it.startswith("#") or it.startswith("# ")][3:], count


def run(*words):
    return subprocess.run(words, stdout=subprocess.PIPE, stderr=subprocess.DEVNULL, check=True).stdout.decode()


def block_type(name, words):
    return f"{name}(Some({words[0].upper()}))" if words else f"{name}(None)"


def signed(value, bits):
    value = int(value)
    return value - 2**bits if value >= 2 ** (bits - 1) else value


def instr(text):
    """An instruction that wasm-objdump prints, as the decoder's type shows it."""
    name, *words = re.sub(r" <[^>]*>", "", text).split()
    if name in PLAIN:
        return PLAIN[name]
    if name in INDEXED:
        return f"{INDEXED[name]}({words[0]})"
    if name in ("block", "loop", "if"):
        return block_type(name.capitalize(), words)
    if name == "br_table":
        return "BrTable( " + " ".join(words) + " )"
    if name == "call_indirect":
        return "CallIndirect(" + re.search(r"type (\d+)", text)[1] + ")"
    width, _, rest = name.partition(".")
    width = width.upper()
    if rest == "const":
        return f"{width}Const({signed(words[0], int(width[1:]))})"
    if rest == "eqz":
        return f"Test({width}, Eqz)"
    for table, kind in ((UNARY, "Unary"), (BINARY, "Binary"), (COMPARE, "Compare")):
        if rest in table:
            return f"{kind}({width}, {table[rest]})"
    kind = "Load" if rest.startswith("load") else "Store"
    op = width + "".join(it.capitalize() for it in rest.split("_"))
    return f"{kind} {{ op: {op}, align: {words[0]}, offset: {words[1]} }}"


def bodies(path):
    found, locals_of = [], []
    for line in run("wasm-objdump", "-d", path).split("\n"):
        if re.match(r"[0-9a-f]+ func\[", line):
            found.append([])
            locals_of.append([])
        elif "|" in line:
            text = line.split("|", 1)[1].strip()
            local = re.match(r"local\[(\d+)(?:\.\.(\d+))?\] type=(\w+)", text)
            if local:
                first, last = int(local[1]), int(local[2] or local[1])
                locals_of[-1] += [local[3].upper()] * (last - first + 1)
            elif text:
                found[-1].append(instr(text))
    return list(zip(locals_of, found))


def constant(text):
    value = re.match(r"(i32|i64|global)=(-?\d+)", text)
    if value[1] == "global":
        return f"GlobalGet({value[2]}) End"
    return f"{value[1].upper()}Const({signed(value[2], int(value[1][1:]))}) End"


def details(path):
    """The contents of a module by wasm-objdump, as the program shows them."""
    out, pending, datas = [], None, []
    for line in run("wasm-objdump", "-x", path).split("\n"):
        line = line.strip()
        if line.startswith("- type[") and "->" in line:
            params, results = re.match(r"- type\[\d+\] \((.*)\) -> (.*)", line).groups()
            params = "".join(f" {it.upper()}" for it in params.replace(",", " ").split())
            out.append(f"  type{params} ->" + ("" if results == "nil" else f" {results.upper()}"))
        elif imported := re.match(r"- func\[\d+\] sig=(\d+) .*<- (\S*?)\.(.*)$", line):
            out.append(f"  import {imported[2]} {imported[3]} func {imported[1]}")
        elif imported := re.match(r"- global\[\d+\] (\w+) mutable=0 .*<- (\S*?)\.(.*)$", line):
            out.append(f"  import {imported[2]} {imported[3]} global {imported[1].upper()}")
        elif func := re.match(r"- func\[\d+\] sig=(\d+)", line):
            out.append(f"  func {func[1]}")
        elif table := re.match(r"- table\[\d+\] type=funcref initial=(\d+)(?: max=(\d+))?", line):
            out.append(f"  table {table[1]} " + (f"Some({table[2]})" if table[2] else "None"))
        elif memory := re.match(r"- memory\[\d+\] pages: initial=(\d+)(?: max=(\d+))?", line):
            out.append(f"  memory {memory[1]} " + (f"Some({memory[2]})" if memory[2] else "None"))
        elif glob := re.match(r"- global\[\d+\] (\w+) mutable=(\d)(?: <[^>]*>)? - init (\S+)", line):
            out.append(f"  global {glob[1].upper()} {'Var' if glob[2] == '1' else 'Const'} : {constant(glob[3])}")
        elif export := re.match(r'- (func|table|memory|global)\[(\d+)\].* -> "(.*)"$', line):
            out.append(f"  export {export[3]} {KINDS[export[1]]} {export[2]}")
        elif start := re.match(r"- start function: (\d+)", line):
            out.append(f"  start {start[1]}")
        elif segment := re.match(r"- segment\[\d+\] flags=0 table=(\d+) count=\d+ - init (\S+)", line):
            out.append([segment[1], constant(segment[2]), []])
        elif element := re.match(r"- elem\[\d+\] = (?:ref\.)?func\[?:?(\d+)\]?", line):
            out[-1][2].append(element[1])
        elif line == "Code" or line.startswith("Code["):
            for locals_of, code in bodies(path):
                out.append("  body" + "".join(f" {it}" for it in locals_of) + " : " + " ".join(code))
        elif segment := re.match(r"- segment\[\d+\] memory=(\d+) size=\d+ - init (\S+)", line):
            datas.append([segment[1], constant(segment[2]), ""])
        elif dump := re.match(r"- [0-9a-f]+: ((?:[0-9a-f]{2,4} )+)", line):
            if datas:
                datas[-1][2] += dump[1].replace(" ", "")
    out = [it if isinstance(it, str) else f"  element {it[0]} : {it[1]} : [{', '.join(it[2])}]" for it in out]
    return out + [f"  data {it[0]} : {it[1]} : {it[2]}" for it in datas]


def cuts(path):
    """The lengths at which wasm-objdump says that a section ends, as the program wants them: those with as many code
    entries as functions are modules."""
    decoded, mismatched, functions, codes = [8], [], 0, 0
    for line in run("wasm-objdump", "-h", path).split("\n"):
        section = re.match(r"\s*(\w+) start=\w+ end=0x(\w+) \(size=\w+\) (?:count: (\d+))?", line)
        if section:
            functions = int(section[3]) if section[1] == "Function" else functions
            codes = int(section[3]) if section[1] == "Code" else codes
            (decoded if functions == codes else mismatched).append(int(section[2], 16))
    whole = os.path.getsize(path)
    return " ".join(["cuts ok", *(str(it) for it in decoded if it < whole), "D12", *map(str, mismatched)])


def by_tools():
    lines, shown, count = [], [], 0
    with tempfile.TemporaryDirectory() as room:
        for text in sorted(glob.glob("*.wat")):
            base = f"{room}/{text[:-4]}"
            run("wat2wasm", *LEAST, text, "-o", f"{base}.wasm")
            run("wat2wasm", *LEAST, "--no-canonicalize-leb128s", "--debug-names", text, "-o", f"{base}_long.wasm")
            run("wasm-opt", "--mvp-features", "--enable-mutable-globals", "--enable-sign-ext", "-g", f"{base}.wasm", "-o", f"{base}_other.wasm")
            for path in (f"{base}.wasm", f"{base}_long.wasm", f"{base}_other.wasm"):
                run("wasm-validate", path)
                name = os.path.basename(path)[:-5]
                digits = open(path, "rb").read().hex()
                lines += [f"{name} | show | {digits}", f"{name}_cut | {cuts(path)} | {digits}"]
                shown += [f"{name}:", *details(path)]
                count += os.path.getsize(path) + 1
    return lines, shown, count


os.chdir(os.path.dirname(os.path.abspath(__file__)))
tools, shown, tool_count = by_tools()
cases, hand_count = by_hand()
with open("../stdin", "w") as out:
    out.write("\n".join(["# Written by modules/make.py.", "", *tools, *cases]) + "\n")
with open("../stdout", "w") as out:
    out.write("\n".join([*shown, f"{tool_count + hand_count} cases, 0 wrong"]) + "\n")
