"""Reads and writes modules, as far as the programs here need it: sections, function types, exports and instructions, and
modules made from others, with calls of the exports in functions without parameters and with counters of charges."""

I32, I64 = 0x7F, 0x7E
NAMES = {I32: "i32", I64: "i64"}
BITS = {I32: 32, I64: 64}
TYPE, IMPORT, FUNCTION, TABLE, MEMORY, GLOBAL, EXPORT, START, ELEMENT, CODE, DATA = range(1, 12)

UNREACHABLE, NOP, BLOCK, LOOP, IF, ELSE, END, BR, BR_IF, BR_TABLE, RETURN, CALL, CALL_INDIRECT = [
    0x00, 0x01, 0x02, 0x03, 0x04, 0x05, 0x0B, 0x0C, 0x0D, 0x0E, 0x0F, 0x10, 0x11
]
CONSTS = (0x41, 0x42)
INDEXED = {BR, BR_IF, CALL, 0x20, 0x21, 0x22, 0x23, 0x24}
ACCESS = {0x28, 0x29, *range(0x2C, 0x38), *range(0x3A, 0x3F)}
PLAIN = {UNREACHABLE, NOP, ELSE, END, RETURN, 0x1A, 0x1B, *range(0x45, 0x5B), *range(0x67, 0x8B), 0xA7, 0xAC, 0xAD, *range(0xC0, 0xC5)}
FREE = {*CONSTS, ELSE, END}


def unsigned(value):
    out = bytearray()
    while value > 127:
        out.append(value & 127 | 128)
        value >>= 7
    return bytes(out) + bytes([value])


def signed(value):
    out = bytearray()
    while not -64 <= value < 64:
        out.append(value & 127 | 128)
        value >>= 7
    return bytes(out) + bytes([value & 127])


def vector(items):
    return unsigned(len(items)) + b"".join(items)


def named(name):
    return unsigned(len(name)) + name.encode()


class Reader:
    def __init__(self, data, place=0):
        self.data, self.place = data, place

    def byte(self):
        self.place += 1
        return self.data[self.place - 1]

    def take(self, count):
        self.place += count
        assert self.place <= len(self.data)
        return self.data[self.place - count : self.place]

    def unsigned(self):
        value = shift = 0
        while True:
            byte = self.byte()
            value |= (byte & 127) << shift
            shift += 7
            if byte < 128:
                return value

    def signed(self):
        value = shift = 0
        while True:
            byte = self.byte()
            value |= (byte & 127) << shift
            shift += 7
            if byte < 128:
                return value - (1 << shift) if byte & 64 else value

    def vector(self, item):
        return [item(self) for _ in range(self.unsigned())]

    def name(self):
        return self.take(self.unsigned()).decode()

    def func_type(self):
        assert self.byte() == 0x60
        return tuple(self.take(self.unsigned())), tuple(self.take(self.unsigned()))

    def limits(self):
        has_most = self.byte()
        return self.unsigned(), self.unsigned() if has_most else None


def instruction(reader):
    """An opcode, its immediates, and its bytes. Only the integer instructions of version 1.0 are any."""
    start, code = reader.place, reader.byte()
    if code in PLAIN:
        given = None
    elif code in (BLOCK, LOOP, IF):
        given = reader.byte()
    elif code in INDEXED:
        given = reader.unsigned()
    elif code in ACCESS:
        given = reader.unsigned(), reader.unsigned()
    elif code == BR_TABLE:
        given = reader.vector(Reader.unsigned), reader.unsigned()
    elif code == CALL_INDIRECT:
        given = reader.unsigned()
        assert reader.byte() == 0
    elif code in (0x3F, 0x40):
        given = reader.byte()
        assert given == 0
    else:
        assert code in CONSTS, f"opcode {code:02x}"
        given = reader.signed()
    return code, given, reader.data[start : reader.place]


def expression(reader):
    out, depth = [], 0
    while True:
        item = instruction(reader)
        out.append(item)
        depth += (item[0] in (BLOCK, LOOP, IF)) - (item[0] == END)
        if depth < 0:
            return out


def is_compared(code):
    return 0x45 <= code < 0x5B


class Module:
    """Sections by their ids, custom ones left out, and what was read of them."""

    def __init__(self, data):
        reader = Reader(data)
        assert reader.take(8) == b"\0asm\1\0\0\0"
        self.sections = {}
        while reader.place < len(data):
            number, contents = reader.byte(), reader.take(reader.unsigned())
            if number:
                self.sections[number] = contents
        self.types = self.read(TYPE, Reader.func_type)
        self.imports = self.read(IMPORT, self.one_import)
        self.imported = [index for _, _, kind, index in self.imports if kind == 0]
        self.functions = self.imported + self.read(FUNCTION, Reader.unsigned)
        self.globals = self.read(GLOBAL, lambda r: (r.byte(), r.byte(), expression(r)))
        self.exports = self.read(EXPORT, lambda r: (r.name(), r.byte(), r.unsigned()))
        self.bodies = self.read(CODE, self.one_body)

    def read(self, number, item):
        return Reader(self.sections[number]).vector(item) if number in self.sections else []

    @staticmethod
    def one_import(reader):
        module, name, kind = reader.name(), reader.name(), reader.byte()
        return module, name, kind, reader.unsigned() if kind == 0 else tuple(reader.take(2))

    @staticmethod
    def one_body(reader):
        body = Reader(reader.take(reader.unsigned()))
        groups = body.vector(lambda r: (r.unsigned(), r.byte()))
        out = expression(body)
        assert body.place == len(body.data)
        return groups, out

    def type_of(self, function):
        return self.types[self.functions[function]]

    def exported(self, name):
        return next(index for found, kind, index in self.exports if kind == 0 and found == name)

    def spelled(self):
        return b"\0asm\1\0\0\0" + b"".join(bytes([n]) + unsigned(len(c)) + c for n, c in sorted(self.sections.items()))


def stripped(data):
    return Module(data).spelled()


def body_of(groups, code):
    contents = vector([unsigned(count) + bytes([kind]) for count, kind in groups]) + code
    return unsigned(len(contents)) + contents


def whole_body(groups, code):
    return body_of(groups, b"".join(item[2] for item in code))


# Counters, as globals behind those of the module: charges, present depth of calls, greatest depth.
def add_to(place, count):
    kind, const = (0x42, signed(count)) if place[1] == I64 else (0x41, signed(count))
    at = unsigned(place[0])
    return b"\x23" + at + bytes([kind]) + const + (b"\x7c" if place[1] == I64 else b"\x6a") + b"\x24" + at


def counted_body(code, charges, depth, most):
    """The body with counters: a charge for each instruction but constants, ends and elses, added up at the beginning of each
    run of instructions without a label or a branch within; a loop's own charge lies behind its label."""
    out, run, count = [], [], 0
    raised = b"".join([b"\x23", unsigned(depth[0]), b"\x23", unsigned(most[0])] * 2 + [b"\x4a\x1b\x24", unsigned(most[0])])

    def close():
        nonlocal run, count
        if count:
            out.append(add_to(charges, count))
        out.extend(run)
        run, count = [], 0

    for opcode, _, spelling in code:
        if opcode == LOOP:
            run.append(spelling)
            close()
            count = 1
            continue
        count += opcode not in FREE
        if opcode in (CALL, CALL_INDIRECT):
            run += [add_to(depth, 1), raised, spelling, add_to(depth, -1)]
        else:
            run.append(spelling)
        if opcode in (BLOCK, IF, ELSE, END, BR, BR_IF, BR_TABLE, RETURN, UNREACHABLE):
            close()
    close()
    return b"".join(out)


def with_calls(data, calls, is_counted=False):
    """A module that exports only functions without parameters, which call exports of the given one with the given words, in
    order; with counters, behind each of them `charges`, which gives the charges and sets them to 0, and `depth`."""
    module = Module(data)
    first = len(module.globals) + sum(kind == 3 for _, _, kind, _ in module.imports)
    charges, depth, most = (first, I64), (first + 1, I32), (first + 2, I32)
    types, functions = list(module.types), module.functions[len(module.imported) :]
    bodies = [
        body_of(groups, counted_body(code, charges, depth, most)) if is_counted else whole_body(groups, code)
        for groups, code in module.bodies
    ]
    exports = []

    def add(name, results, code):
        if ((), results) not in types:
            types.append(((), results))
        exports.append(named(name) + b"\0" + unsigned(len(module.imported) + len(functions)))
        functions.append(types.index(((), results)))
        bodies.append(body_of([], code))

    for place, (export, words) in enumerate(calls):
        index = module.exported(export)
        params, results = module.type_of(index)
        code = b""
        for kind, word in zip(params, words, strict=True):
            word -= (word >> BITS[kind] - 1) << BITS[kind]
            code += (b"\x41" if kind == I32 else b"\x42") + signed(word)
        add(f"call{place}", results, code + b"\x10" + unsigned(index) + b"\x0b")
        if is_counted:
            at, mark = unsigned(charges[0]), unsigned(most[0])
            add(f"charges{place}", (I64,), b"\x23" + at + b"\x42\x00\x24" + at + b"\x0b")
            add(f"depth{place}", (I32,), b"\x23" + mark + b"\x41\x00\x24" + mark + b"\x0b")
    if is_counted:
        out = [bytes([kind, way]) + b"".join(item[2] for item in code) for kind, way, code in module.globals]
        out += [bytes([I64, 1]) + b"\x42\x00\x0b", bytes([I32, 1]) + b"\x41\x00\x0b", bytes([I32, 1]) + b"\x41\x00\x0b"]
        module.sections[GLOBAL] = vector(out)
    module.sections[TYPE] = vector([b"\x60" + unsigned(len(p)) + bytes(p) + unsigned(len(r)) + bytes(r) for p, r in types])
    module.sections[FUNCTION] = vector([unsigned(index) for index in functions])
    module.sections[EXPORT] = vector(exports)
    module.sections[CODE] = vector(bodies)
    return module.spelled()
