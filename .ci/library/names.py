"""Whether the header, the Rust crate and the Python module declare what the library has: its exports with the types of their
parameters and results, its structs with the types and places of their fields, its kinds of statuses, and the version."""
import ctypes
import os
import re
import subprocess
import tempfile

from driven import ROOT, wolqedir

EXPORT = r'#\[unsafe\(no_mangle\)\]\s*pub extern "C" fn (\w+)\((.*?)\)\s*(?:-> (\w+))?\s*(?:ensures|\{)'
STRUCT = r"#\[repr\(C\)\]\s*(?:#\[[^\]]*\]\s*)*pub struct (\w+) \{(.*?)\n\}"
# The structs, by their names in crates/wolqedir, the header, the Rust crate and the Python module.
STRUCTS = [
    ("Handle", "wq_host", "Handle", "Handle"),
    ("RawInstance", "wq_instance", "Instance", "RawInstance"),
    ("RawParams", "wq_params", "Params", "Params"),
    ("RawQuota", "wq_quota", "Quota", "Quota"),
    ("Progress", "wq_progress", "Progress", "Progress"),
    ("RawStatus", "wq_status", "Status", "Told"),
    ("RawExport", "wq_export", "Export", "RawExport"),
    ("RawReport", "wq_report", "Report", "RawReport"),
    ("RawCounts", "wq_counts", "Counts", "RawCounts"),
    ("RawInstanceReport", "wq_instance_report", "InstanceReport", "RawRow"),
]
# Types, as they are on x86-64: by size, and whether they are signed. `usize` and `u64` are one.
PLAIN = {"u8": "u8", "u32": "u32", "u64": "u64", "i64": "i64", "usize": "u64"}
IN_C = {"uint8_t": "u8", "uint32_t": "u32", "uint64_t": "u64", "int64_t": "i64", "size_t": "u64", "wq_code": "u32", "void": "()"}
IN_PYTHON = {ctypes.c_uint8: "u8", ctypes.c_uint32: "u32", ctypes.c_uint64: "u64", ctypes.c_int64: "i64"}
HEADER, RUST, PYTHON = ({row[at]: row[0] for row in STRUCTS} for at in (1, 2, 3))


def read(*path):
    with open(os.path.join(ROOT, *path)) as file:
        return file.read()


def parts(text, separator=","):
    """The parts of a text between separators, that have something."""
    return [part.strip() for part in re.sub(r"\s+", " ", text).split(separator) if part.strip()]


def of_source(kind):
    """What a parameter of an export is for C: an allocator nothing, and a slice a pointer and a length."""
    if kind == "Global":
        return []
    pointer = re.fullmatch(r"&(mut )?(\[)?(\w+)\]?", kind)
    if pointer is None:
        return [PLAIN[kind]]
    mutable, slice, goal = pointer.groups()
    return [("*mut " if mutable else "*const ") + PLAIN.get(goal, goal)] + (["u64"] if slice else [])


def of_c(declaration):
    """The type and the name of a parameter or a field of the header."""
    const, kind, pointer, name = re.fullmatch(r"(const )?(\w+) (\*)?(\w+)", declaration).groups()
    plain = IN_C[kind] if kind in IN_C else HEADER[kind]
    return (f"*{'const' if const else 'mut'} {plain}" if pointer else plain), name


def of_rust(kind):
    pointer = re.fullmatch(r"(\*mut |\*const )?(\w+)", kind)
    goal = pointer[2]
    return (pointer[1] or "") + (PLAIN[goal] if goal in PLAIN else RUST[goal])


def of_python(kind):
    """A type of ctypes, whose pointers don't say whether what lies there is written."""
    if kind in IN_PYTHON:
        return IN_PYTHON[kind]
    if kind is ctypes.c_void_p:
        return "* u8"
    return "* " + of_python(kind._type_) if hasattr(kind, "contents") else PYTHON[kind.__name__]


def sources():
    """The text of crates/wolqedir without comments and contracts' arrows."""
    folder = os.path.join("crates", "wolqedir", "src")
    return "\n".join(re.sub(r"//.*", "", read(folder, name)) for name in sorted(os.listdir(os.path.join(ROOT, folder))))


def header():
    return re.sub(r"/\*.*?\*/", "", read("bindings", "c", "wolqedir.h"), flags=re.DOTALL)


def exports():
    """The exports by their names, each with the types of its parameters and of its result."""
    found = {}
    for name, inside, result in re.findall(EXPORT, sources(), re.DOTALL):
        kinds = [kind for part in parts(inside) for kind in of_source(part.split(": ")[1])]
        found[name] = kinds, PLAIN[result] if result else "()"
    return found


def of_header():
    told = re.findall(r"(?m:^)(wq_code|void) (wq_\w+)\((.*?)\);", header(), re.DOTALL)
    return {name: ([of_c(part)[0] for part in parts(inside)], IN_C[result]) for result, name, inside in told}


def of_crate():
    text = re.sub(r"//.*", "", read("bindings", "rust", "src", "sys.rs"))
    told = re.findall(r"pub fn (wq_\w+)\((.*?)\)(?: -> (\w+))?;", text, re.DOTALL)
    return {name: ([of_rust(part.split(": ")[1]) for part in parts(inside)], PLAIN[result] if result else "()") for name, inside, result in told}


def of_module():
    """The exports as the module tells ctypes of them; pointers without what they may write."""
    return {
        name: ([of_python(kind) for kind in export.argtypes], "()" if export.restype is None else of_python(export.restype))
        for name, export in ((name, getattr(wolqedir.lib, name)) for name in wolqedir.EXPORTS)
    }


def blurred(told):
    """The exports, as Python can tell of them."""
    return {name: ([re.sub(r"\*(mut|const)", "*", kind) for kind in kinds], result) for name, (kinds, result) in told.items()}


def fields_of(text, of, skipped=()):
    """The fields of structs in Rattle or Rust by their names, each with its name and type."""
    found = {}
    for name, inside in re.findall(STRUCT, text, re.DOTALL):
        lines = [re.sub(r"^pub ", "", part) for part in parts(re.sub(r"(pub )?ghost [^\n]*", "", inside)) if not part.startswith("#")]
        pairs = [line.split(": ", 1) for line in lines]
        found[name] = [(field, of(kind)) for field, kind in pairs if not kind.startswith(skipped)]
    return found


def structs():
    """The structs of crates/wolqedir. A handle's slot is a pointer, to what C can't see."""
    text = sources()
    found = fields_of(text, lambda kind: {"*mut Opaque": "*mut u8", "HandleSlot": "slot"}.get(kind) or PLAIN.get(kind, kind), ("Global",))
    slot = found.pop("HandleSlot")
    assert len(slot) == 1, slot
    found["Handle"] = [slot[0] if kind == "slot" else (field, kind) for field, kind in found["Handle"]]
    return {row[0]: found[row[0]] for row in STRUCTS}


def structs_of_header():
    told = re.findall(r"typedef struct (\w+) \{(.*?)\} \1;", header(), re.DOTALL)
    return {HEADER[name]: [pair for line in parts(inside, ";") for pair in fields_of_line(line)] for name, inside in told}


def fields_of_line(line):
    """The fields of `uint64_t min, max`, each with its type."""
    kind, *others = line.split(", ")
    first, name = of_c(kind)
    return [(name, "*mut u8" if first == "*mut ()" else first)] + [(other, first) for other in others]


def structs_of_crate():
    text = re.sub(r"//.*", "", read("bindings", "rust", "src", "sys.rs"))
    found = fields_of(text, of_rust, ("PhantomData",))
    return {RUST[name]: fields for name, fields in found.items()}


def structs_of_module():
    return {
        row[0]: [(name, of_python(kind).replace("* u8", "*mut u8")) for name, kind in getattr(wolqedir, row[3])._fields_] for row in STRUCTS
    }


def places():
    """The size of each struct and the place of each of its fields, as gcc lays the header's and as ctypes lays the module's."""
    lines, wanted = [], []
    for name, in_c, _, in_python in STRUCTS:
        kind = getattr(wolqedir, in_python)
        lines.append(f"sizeof({in_c})")
        wanted.append(ctypes.sizeof(kind))
        for field, _ in kind._fields_:
            lines.append(f"offsetof({in_c}, {field})")
            wanted.append(getattr(kind, field).offset)
    asserts = "".join(f'_Static_assert({line} == {value}, "{line}");\n' for line, value in zip(lines, wanted))
    with tempfile.NamedTemporaryFile("w", suffix=".c") as file:
        file.write(f'#include "{ROOT}/bindings/c/wolqedir.h"\n{asserts}')
        file.flush()
        ran = subprocess.run(["gcc", "-std=c11", "-fsyntax-only", file.name], stderr=subprocess.PIPE, text=True)
    assert ran.returncode == 0, ran.stderr
    return len(wanted)


def differences(found, wanted):
    return {name: (found.get(name), wanted.get(name)) for name in found.keys() | wanted.keys() if found.get(name) != wanted.get(name)}


def versions():
    """The version of the header, the Rust crate, the Python module and pkg-config's file is one."""
    text = read("bindings", "c", "wolqedir.h")
    number, version = int(re.search(r"#define WQ_VERSION (\d+)", text)[1]), re.search(r'#define WQ_VERSION_TEXT "(.*)"', text)[1]
    major, minor, patch = map(int, version.split("."))
    assert number == 10000 * major + 100 * minor + patch, (number, version)
    crate = re.search(r'^version = "(.*)"', read("bindings", "rust", "Cargo.toml"), re.M)[1]
    package = re.search(r"^Version: (.*)", read("bindings", "c", "wolqedir.pc"), re.M)[1]
    node = re.search(r"^WOLQEDIR_(\d+) ", read("bindings", "c", "wolqedir.map"), re.M)[1]
    assert [crate, package, wolqedir.__version__, int(node)] == [version, version, version, major], (crate, package, node)


def kinds():
    """The kinds of statuses are those of the header's enum, in its order."""
    names = re.search(r"enum \{(.*?)\};", header(), re.DOTALL)[1]
    told = {at: re.match(r"WQ_(\w+)", name)[1].lower() for at, name in enumerate(parts(names), 1)}
    assert told == wolqedir.KINDS, (told, wolqedir.KINDS)


def same():
    """How many exports there are, and how many places of structs. All declare the same."""
    wanted, shapes = exports(), structs()
    assert len(wanted) == 28 and len(shapes) == len(STRUCTS), (len(wanted), len(shapes))
    for where, found, told in (
        ("bindings/c/wolqedir.h", of_header(), wanted),
        ("bindings/rust/src/sys.rs", of_crate(), wanted),
        ("bindings/python/wolqedir.py", of_module(), blurred(wanted)),
        ("bindings/c/wolqedir.h", structs_of_header(), shapes),
        ("bindings/rust/src/sys.rs", structs_of_crate(), shapes),
        ("bindings/python/wolqedir.py", structs_of_module(), shapes),
    ):
        other = differences(found, told)
        assert not other, f"{where} declares otherwise than crates/wolqedir: {other}"
    kinds()
    versions()
    return len(wanted), places()
