"""A second decoder, written apart from the proved one, by the tables of the format and of the faults: what it answers for
a module's bytes is `ok`, or the number and the offset of the first fault, as `D3 7`."""
FLOAT = {
    0x2A, 0x2B, 0x38, 0x39, 0x43, 0x44, *range(0x5B, 0x67), *range(0x8B, 0xA7), *range(0xA8, 0xAC), *range(0xAE, 0xC0)
}
PLAIN = {0x00, 0x01, 0x0F, 0x1A, 0x1B, *range(0x45, 0x5B), *range(0x67, 0x8B), 0xA7, 0xAC, 0xAD, *range(0xC0, 0xC5)}
INDEXED = {0x0C, 0x0D, 0x10, *range(0x20, 0x25)}
ACCESS = {0x28, 0x29, *range(0x2C, 0x38), *range(0x3A, 0x3F)}


class Fault(Exception):
    def __init__(self, number, offset):
        self.number, self.offset = number, offset


class Reader:
    """The bytes, the place reached, and the ends of the open section and code entry."""

    def __init__(self, data):
        self.data, self.place, self.ends = data, 0, []

    def look(self):
        if self.ends and self.place == min(self.ends):
            raise Fault(5, self.place)
        if self.place == len(self.data):
            raise Fault(3, self.place)
        return self.data[self.place]

    def byte(self):
        value = self.look()
        self.place += 1
        return value

    def u32(self):
        value = 0
        for index in range(5):
            at, byte = self.place, self.byte()
            if index == 4 and byte > 0x0F:
                raise Fault(6, at)
            value |= (byte & 127) << (7 * index)
            if byte < 128:
                return value

    def signed(self, most, lasts):
        for index in range(most):
            at, byte = self.place, self.byte()
            if index == most - 1 and byte not in lasts:
                raise Fault(6, at)
            if byte < 128:
                return

    def one_of(self, bytes_, fault=8):
        at, byte = self.place, self.byte()
        if byte not in bytes_:
            raise Fault(fault, at)
        return byte

    def name(self):
        length, at = self.u32(), self.place
        for _ in range(length):
            self.byte()
        try:
            self.data[at : self.place].decode("utf-8")
        except UnicodeDecodeError:
            raise Fault(7, at)

    def count(self, limit=None):
        at, count = self.place, self.u32()
        if limit is not None and count > limit:
            raise Fault(11, at)
        return count

    def value_type(self, others=()):
        at, byte = self.place, self.byte()
        if byte in (0x7D, 0x7C):
            raise Fault(9, at)
        if byte not in (0x7F, 0x7E, *others):
            raise Fault(8, at)

    def limits(self):
        bounded = self.one_of((0, 1))
        self.u32()
        if bounded:
            self.u32()

    def instruction(self, opcode, at):
        if opcode in INDEXED:
            self.u32()
        elif opcode in ACCESS:
            self.u32()
            self.u32()
        elif opcode == 0x0E:
            for _ in range(self.count(4096)):
                self.u32()
            self.u32()
        elif opcode == 0x11:
            self.u32()
            self.one_of((0,))
        elif opcode in (0x3F, 0x40):
            self.one_of((0,))
        elif opcode == 0x41:
            self.signed(5, (*range(0x00, 0x08), *range(0x78, 0x80)))
        elif opcode == 0x42:
            self.signed(10, (0x00, 0x7F))
        elif opcode in FLOAT:
            raise Fault(9, at)
        elif opcode not in PLAIN:
            raise Fault(8, at)

    def expression(self, most=None):
        opened, count = [], 0
        while True:
            at, opcode = self.place, self.look()
            if count == most:
                raise Fault(11, at)
            self.place, count = self.place + 1, count + 1
            if opcode in (0x02, 0x03, 0x04):
                if len(opened) == 256:
                    raise Fault(11, at)
                self.value_type((0x40,))
                opened.append(opcode)
            elif opcode == 0x05:
                if not opened or opened[-1] != 0x04:
                    raise Fault(8, at)
                opened[-1] = opcode
            elif opcode == 0x0B:
                if not opened:
                    return
                opened.pop()
            else:
                self.instruction(opcode, at)

    def func_type(self):
        self.one_of((0x60,))
        for _ in range(self.count(256)):
            self.value_type()
        for _ in range(self.count()):
            self.value_type()

    def imported(self):
        self.name()
        self.name()
        at, kind = self.place, self.byte()
        if kind in (1, 2):
            raise Fault(10, at)
        if kind not in (0, 3):
            raise Fault(8, at)
        if kind == 0:
            self.u32()
            return
        self.value_type()
        at, flag = self.place, self.byte()
        if flag:
            raise Fault(10 if flag == 1 else 8, at)

    def table(self):
        self.one_of((0x70,))
        self.limits()

    def variable(self):
        self.value_type()
        self.one_of((0, 1))
        self.expression()

    def export(self):
        self.name()
        self.one_of((0, 1, 2, 3))
        self.u32()

    def segment(self, item):
        self.u32()
        self.expression()
        for _ in range(self.u32()):
            item()

    def entry(self):
        size = self.u32()
        end, declared = self.place + size, 0
        self.ends.append(end)
        for _ in range(self.u32()):
            at = self.place
            declared += self.u32()
            if declared > 256:
                raise Fault(11, at)
            self.value_type()
        self.expression(65536)
        if self.place != end:
            raise Fault(5, self.place)
        self.ends.pop()

    def contents(self, section, functions):
        """Reads a section; the answer is the number of functions."""
        vectors = {
            1: (1024, self.func_type), 2: (256, self.imported), 3: (4096, self.u32), 4: (None, self.table),
            5: (None, self.limits), 6: (1024, self.variable), 7: (1024, self.export),
            9: (256, lambda: self.segment(self.u32)), 10: (None, self.entry), 11: (1024, lambda: self.segment(self.byte)),
        }
        if section == 8:
            self.u32()
            return functions
        limit, item = vectors[section]
        at, count = self.place, self.count(limit)
        if section == 10 and count != functions:
            raise Fault(12, at)
        for _ in range(count):
            item()
        return count if section == 3 else functions

    def module(self):
        if len(self.data) > 1048576:
            raise Fault(11, 1048576)
        for index, byte in enumerate(b"\0asm\1\0\0\0"):
            self.one_of((byte,), 1 if index < 4 else 2)
        last, functions, has_code = 0, 0, False
        while self.place < len(self.data):
            at, section = self.place, self.byte()
            if section > 11:
                raise Fault(8, at)
            if section and section <= last:
                raise Fault(4, at)
            end = self.u32()
            end += self.place
            self.ends = [end]
            if section == 0:
                self.name()
                if end > len(self.data):
                    raise Fault(3, len(self.data))
                self.place = end
            else:
                last, has_code = section, has_code or section == 10
                functions = self.contents(section, functions)
                if self.place != end:
                    raise Fault(5, self.place)
            self.ends = []
        if functions and not has_code:
            raise Fault(12, len(self.data))


def answer(data):
    """What decoding these bytes has to answer."""
    try:
        Reader(data).module()
        return "ok"
    except Fault as fault:
        return f"D{fault.number} {fault.offset}"
