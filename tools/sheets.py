"""Random sheets of document 01, whole and damaged; the same seed gives the
same sheets.

    generated(seed, count) -> a list of (name, sheet)

Used by tools/generate. The answers come from tools/answer.
"""
import random
import struct

TYPES = ("int", "byte", "big", "real", "string", "ptr")
NAMES = ("A", "B", "C", "D", "a", "b", "x", "nil", "iota", "_", "tag", "at", "k9")
RECORDS = ("T", "U", "Scan", "W_1", "A")
TAGS = ("c", "d", "e", "Circle", "c9")
MODULES = ("M", "N", "Main", "iota", "T")
INTS = (
    0, 1, 2, 3, -1, -2, 7, -7, 8, 31, 32, 63, 64, 65, 127, 128, 255, 256, 300, -128, -129,
    2**31 - 1, 2**31, -(2**31), -(2**31) - 1, 2**32, 2**32 - 1, 2**52, 2**53, 2**53 + 1,
    2**53 + 3, -(2**53) - 1, 2**54 + 2, 2**62, 2**63 - 1, 2**63 - 512, 2**63 - 513,
    -(2**63), -(2**63) + 1, 2**24 + 1, 10**18, 65535, 65536,
)
REALS = (
    0x0000000000000000, 0x8000000000000000,  # 0, -0
    0x0000000000000001, 0x8000000000000001, 0x000FFFFFFFFFFFFF,  # subnormal
    0x0010000000000000, 0x7FEFFFFFFFFFFFFF, 0xFFEFFFFFFFFFFFFF,
    0x7FF0000000000000, 0xFFF0000000000000,  # infinities
    0x3FF0000000000000, 0xBFF0000000000000, 0x3FE0000000000000, 0xBFE0000000000000,
    0x3FF8000000000000, 0xC004000000000000, 0x4004000000000000,  # 1.5, -2.5, 2.5
    0x3FB999999999999A, 0x3FEFFFFFFFFFFFFF, 0x3FF0000000000001,
    0x41DFFFFFFFC00000, 0x41E0000000000000, 0xC1E0000000000000, 0xC1E0000000200000,
    0x43DFFFFFFFFFFFFF, 0x43E0000000000000, 0xC3E0000000000000, 0xC3E0000000000001,
    0x4340000000000000, 0x4340000000000001, 0x406FE00000000000, 0x4070000000000000,
)
# Of constants, globals, records, needs, frames and stray lines in a sheet.
WEIGHTS = ((8, 6, 4, 3, 1, 0.5), (20, 2, 1, 1, 0, 0.2), (2, 20, 1, 2, 1, 0.2), (1, 1, 20, 6, 1, 0.2))
CHARACTERS = "aZ09 ,\n\0é߿ࠀ€￿𐀀\U0010FFFF"


class Build:
    """A sheet under construction; `put` returns the new line's number."""

    def __init__(self):
        self.lines = []

    def put(self, *fields):
        self.lines.append(",".join(map(str, fields)))
        return len(self.lines)

    def sheet(self):
        return "".join(line + "\n" for line in self.lines).encode()


def hex_text(text):
    return text.encode("utf-8").hex().upper()


class Maker(Build):
    def __init__(self, rng):
        super().__init__()
        self.rng = rng
        # Most sheets keep to folds that succeed and arrays that are small, so
        # that what follows them is tested too.
        self.wild = rng.choice((0.0, 0.02, 0.05, 0.15, 0.5))
        self.weights = rng.choice(WEIGHTS)
        self.names_left, self.place, self.known, self.module = 256, (1, 1), [], None
        self.count = {"con": 0, "need": 0, "frame": 0, "record": 0}

    def odd(self):
        return self.rng.random() < self.wild

    def name(self, pool=NAMES):
        rng = self.rng
        if rng.random() < 0.03:
            size = rng.choice((1, 2, 31, 32))
            return "q" + "".join(rng.choice("aZ_09") for _ in range(size - 1))
        return rng.choice(pool)

    # ---- types

    def type(self, depth=3):
        rng = self.rng
        if depth == 0 or rng.random() < 0.7:
            return self.put("ty", rng.choice(TYPES))
        if rng.random() < 0.4:
            return self.put("ty", "array", self.type(depth - 1))
        parts = [self.type(depth - 1) for _ in range(rng.choice((0, 1, 2, 2, 3, 4)))]
        return self.put("ty", "tuple", len(parts), *parts)

    # ---- expressions

    def int(self):
        rng = self.rng
        pick = rng.random()
        if pick < 0.4:
            value = rng.randint(-4, 20)
        elif pick < 0.85:
            value = rng.choice(INTS)
        else:
            value = rng.getrandbits(64) - 2**63
        return self.put("ex", "int", value)

    def real(self):
        rng = self.rng
        pick = rng.random()
        if pick < 0.55:
            bits = rng.choice(REALS)
        elif pick < 0.8:
            value = rng.choice((rng.uniform(-10, 10), float(rng.choice(INTS)) + rng.choice((0, 0.5))))
            bits = struct.unpack(">Q", struct.pack(">d", value))[0]
        else:
            bits = rng.getrandbits(64)
            if bits & (2**63 - 1) > 0x7FF0000000000000:
                bits &= 0xBFFFFFFFFFFFFFFF
        return self.put("ex", "real", f"{bits:016X}")

    def string(self):
        rng = self.rng
        size = rng.choice((0, 1, 1, 2, 3, 5, 8)) if rng.random() < 0.97 else rng.randint(10, 31)
        text = "".join(rng.choice(CHARACTERS) for _ in range(size))
        return self.put("ex", "str", hex_text(text))

    def named(self):
        """`iota`, a constant that stands before, or any name."""
        rng = self.rng
        if rng.random() < 0.3:
            return self.put("ex", "id", "iota")
        if self.known and rng.random() < 0.8:
            module, name = rng.choice(self.known)
        else:
            module, name = rng.choice((None, rng.choice(MODULES))), self.name()
        if module is None:
            return self.put("ex", "id", name)
        inner = self.put("ex", "id", module) if not self.odd() else self.int()
        return self.put("ex", "qual", inner, name)

    def expr(self, kind=None, depth=3):
        """An expression that is likely to fold to the kind."""
        rng = self.rng
        if self.odd():
            kind = rng.choice(("int", "real", "string", "failed"))
        kind = kind or rng.choice(("int", "int", "real", "string"))
        if kind == "failed":
            form = rng.choice(("other", "ref", "power", "zero", "array", "mixed"))
            if form == "other" or depth == 0:
                return self.put("ex", "other")
            if form == "array":
                return self.array()
            if form == "ref":
                return self.put("ex", "un", 3, self.expr(None, depth - 1))
            if form == "power":
                left, right = self.expr(None, depth - 1), self.expr(None, depth - 1)
                return self.put("ex", "bin", rng.choice((5, 17, 18)), left, right)
            if form == "zero":
                left, right = self.expr("int", depth - 1), self.put("ex", "int", 0)
                return self.put("ex", "bin", rng.choice((3, 4)), left, right)
            left, right = self.expr("string", depth - 1), self.expr("int", depth - 1)
            return self.put("ex", "bin", rng.randrange(19), left, right)
        if rng.random() < 0.12:
            return self.named()
        if depth == 0 or rng.random() < 0.35:
            return {"int": self.int, "real": self.real, "string": self.string}[kind]()
        if kind == "int":
            return self.int_tree(depth)
        if kind == "real":
            return self.real_tree(depth)
        return self.string_tree(depth)

    def int_tree(self, depth):
        rng = self.rng
        form = rng.random()
        if form < 0.15:
            return self.put("ex", "un", rng.randrange(3), self.expr("int", depth - 1))
        if form < 0.3:
            to = self.put("ty", rng.choice(("int", "byte", "big")))
            return self.put("ex", "cast", to, self.expr(rng.choice(("int", "real")), depth - 1))
        if form < 0.4:
            return self.put("ex", "len", self.expr("string", depth - 1))
        left, right = self.expr("int", depth - 1), self.expr("int", depth - 1)
        ops = (0, 1, 2, 3, 4, 6, 7, 8, 9, 10, 11, 12, 13, 14, 15, 16)
        return self.put("ex", "bin", rng.choice(ops), left, right)

    def real_tree(self, depth):
        rng = self.rng
        form = rng.random()
        if form < 0.2:
            return self.put("ex", "un", 0, self.expr("real", depth - 1))
        if form < 0.4:
            to = self.put("ty", "real")
            return self.put("ex", "cast", to, self.expr(rng.choice(("int", "real")), depth - 1))
        kinds = rng.choice((("real", "real"), ("int", "real"), ("real", "int")))
        left, right = (self.expr(kind, depth - 1) for kind in kinds)
        return self.put("ex", "bin", rng.randrange(4), left, right)

    def string_tree(self, depth):
        rng = self.rng
        if rng.random() < 0.5:
            to = self.type(1) if rng.random() < 0.4 else self.put("ty", "string")
            return self.put("ex", "cast", to, self.expr(rng.choice(("int", "string")), depth - 1))
        left, right = self.expr("string", depth - 1), self.expr("string", depth - 1)
        return self.put("ex", "bin", 0, left, right)

    # ---- arrays

    def index(self, value):
        if self.odd():
            return self.expr(None, 1)
        return self.put("ex", "int", value)

    def selector(self):
        rng = self.rng
        low = rng.randint(0, 9)
        if self.odd():
            low = rng.choice((-1, -5, 1023, 1024, 2**31, 2**63 - 1, -(2**63)))
        first = self.index(low)
        if rng.random() < 0.5:
            return self.put("se", first, 0)
        high = low + rng.choice((0, 0, 1, 2, 5, -1, -9))
        if self.odd():
            high = rng.choice((-1, 1024, 2000, 2**63 - 1, -(2**63)))
        if not -(2**63) <= high < 2**63:
            high = low
        return self.put("se", first, self.index(high))

    def element(self, kind):
        rng = self.rng
        if kind == "byte":
            inner = self.expr(None, 1)
            value = self.put("ex", "cast", self.put("ty", "byte"), inner)
        else:
            value = self.expr(kind, rng.choice((0, 0, 0, 1, 2)))
        form = rng.random()
        if form < 0.55:
            return self.put("el", "next", value)
        if form < 0.7:
            return self.put("el", "star", value)
        picks = [self.selector() for _ in range(rng.choice((0, 1, 1, 1, 2, 4)))]
        return self.put("el", "at", value, len(picks), *picks)

    def literal(self):
        rng = self.rng
        kind = rng.choice((None, "int", "int", "real", "string", "byte"))
        count = rng.choice((0, 1, 2, 3, 4, 6, 16))
        elements = [self.element(kind) for _ in range(count)]
        size = 0
        if rng.random() < 0.5:
            length = rng.randint(10, 24) if rng.random() < 0.93 else rng.choice((200, 1023, 1024, 1025))
            if self.odd():
                length = rng.choice((0, 1, 5, -1, 2**31, 2**40, 2**63 - 1))
            size = self.index(length)
        of = self.type(1) if rng.random() < 0.3 else 0
        return self.put("ex", "lit", size, of, len(elements), *elements)

    def alloc(self):
        rng = self.rng
        length = rng.choice((0, 1, 2, 5, 30, 100))
        if self.odd():
            length = rng.choice((-1, 2**31 - 1, 2**31, -(2**31), -(2**31) - 1, 8192, 65536, 65537))
        size = self.index(length)
        return self.put("ex", "alloc", size, self.type(2))

    def array(self):
        return self.literal() if self.rng.random() < 0.75 else self.alloc()

    # ---- declarations

    def con(self):
        rng = self.rng
        if self.count["con"] >= 128:
            return
        self.count["con"] += 1
        kind = "failed" if rng.random() < 0.04 else None
        value = self.expr(kind, rng.choice((0, 1, 2, 3, 4)))
        if rng.random() < 0.4:
            self.place = (rng.choice((0, 1, 2, 65535)), rng.choice((0, 1, 65535)))
        name = self.name()
        self.put("con", name, *self.place, value)
        self.known.append((self.module, name))

    def var(self):
        rng = self.rng
        names = [self.name() for _ in range(rng.choice((0, 1, 1, 1, 1, 2, 3, 5, 16)))]
        names = names[: self.names_left]
        self.names_left -= len(names)
        pick = rng.random()
        if pick < 0.15:
            of, value = self.type(2), 0
        elif pick < 0.5:
            value = self.array()
            of = self.put("ty", "array", self.type(1)) if rng.random() < 0.6 else self.type(2)
        else:
            kind = rng.choice(("int", "int", "int", "real", "string"))
            value = self.expr(kind, rng.choice((0, 1, 2)))
            fits = {"int": ("int", "byte", "big"), "real": ("real",), "string": ("string", "ptr")}
            of = self.put("ty", rng.choice(fits[kind])) if rng.random() < 0.7 else self.type(2)
        self.put("var", of, value, len(names), *names)

    def field(self):
        rng = self.rng
        of = 0 if rng.random() < 0.08 else self.type(rng.choice((1, 2, 3)))
        names = [self.name() for _ in range(rng.choice((0, 1, 1, 1, 2, 3)))]
        return self.put("fd", of, len(names), *names)

    def record(self):
        rng = self.rng
        fields = [self.field() for _ in range(rng.choice((0, 1, 2, 3, 5)))]
        if rng.random() < 0.5 and self.count["record"] < 128:
            self.count["record"] += 1
            self.put("adt", self.name(RECORDS), len(fields), *fields)
            return
        cases, tags = [], 0
        for _ in range(rng.choice((0, 1, 2, 3))):
            own = [self.field() for _ in range(rng.choice((0, 1, 2)))]
            names = [self.name(TAGS) for _ in range(rng.choice((0, 1, 1, 2, 3)))]
            cases.append(self.put("pc", len(names), *names, len(own), *own))
            tags += len(names)
        if self.count["record"] + 1 + tags <= 128:
            self.count["record"] += 1 + tags
            self.put("pick", self.name(RECORDS), len(fields), *fields, len(cases), *cases)

    def offsets(self):
        rng = self.rng
        size = rng.choice((0, 1, 3, 4, 8, 28, 29, 32, 33, 36, 64, 4095, 4096))
        if size > 64 and rng.random() < 0.8:
            size = rng.randint(0, 64)
        near = (0, 0, 4, 5, 8, size - 4, size - 3, size, -4, -1, -4096, 4096, 32, 60)
        picks = [rng.choice(near) for _ in range(rng.choice((0, 1, 1, 2, 3, 16)))]
        return (size, len(picks), *picks)

    def need(self):
        rng = self.rng
        if self.count["need"] >= 128:
            return
        self.count["need"] += 1
        form = rng.random()
        if form < 0.45:
            key = self.name(RECORDS)
            if rng.random() < 0.5:
                key += "." + self.name(TAGS)
            self.put("need", "adt", key)
        elif form < 0.65:
            self.put("need", "elem", rng.choice(TYPES[:5]))
        elif form < 0.9:
            self.put("need", "block", *self.offsets())
        else:
            self.put("need", "opaque")

    def frame(self):
        if self.count["frame"] < 128:
            self.count["frame"] += 1
            self.put("frame", *self.offsets())

    def declaration(self):
        forms = (self.con, self.var, self.record, self.need, self.frame, self.stray)
        self.rng.choices(forms, self.weights)[0]()

    def stray(self):
        """A line that nothing refers to."""
        self.rng.choice((self.type, self.expr, self.array, self.field))()

    def fill(self, lines):
        rng = self.rng
        if rng.random() < 0.6:
            self.put("impl", rng.choice(MODULES))
        while len(self.lines) < lines:
            if rng.random() < 0.12:
                if self.module is None:
                    self.module = rng.choice(MODULES)
                    self.put("mod", self.module)
                else:
                    self.module = None
                    self.put("end")
            self.declaration()
        if self.module is not None:
            self.put("end")


def whole(rng, lines):
    """A sheet of about so many lines, and never over 1,000."""
    maker = Maker(rng)
    maker.fill(min(lines, 900))
    return maker.sheet()


def damaged(rng, sheet):
    """The sheet with one or two faults."""
    for _ in range(rng.choice((1, 1, 2))):
        if b"\n" in sheet:  # a cut may have left no line
            sheet = rng.choice(DAMAGES)(rng, sheet)
    return sheet


def change_byte(rng, sheet):
    at = rng.randrange(len(sheet))
    byte = rng.choice(b"0123456789,-\n\r\0 AZaz\xff")
    return sheet[:at] + bytes((byte,)) + sheet[at + 1 :]


def with_lines(change):
    def damage(rng, sheet):
        lines = sheet.split(b"\n")[:-1]
        change(rng, lines)
        return b"".join(line + b"\n" for line in lines)

    return damage


def drop_line(rng, lines):
    del lines[rng.randrange(len(lines))]


def double_line(rng, lines):
    at = rng.randrange(len(lines))
    lines.insert(at, lines[at])


def empty_line(rng, lines):
    lines.insert(rng.randint(0, len(lines)), b"")


def exchange_lines(rng, lines):
    at, to = rng.randrange(len(lines)), rng.randrange(len(lines))
    lines[at], lines[to] = lines[to], lines[at]


def with_fields(change):
    def damage(rng, lines):
        at = rng.randrange(len(lines))
        fields = lines[at].split(b",")
        change(rng, fields)
        lines[at] = b",".join(fields)

    return damage


def add_field(rng, fields):
    fields.insert(rng.randint(0, len(fields)), rng.choice((b"", b"0", b"1", b"-1", b"A", b"01")))


def drop_field(rng, fields):
    del fields[rng.randrange(len(fields))]


def change_field(rng, fields):
    choices = (b"0", b"1", b"2", b"17", b"33", b"65536", b"-4097", b"9" * 19, b"1" + b"0" * 200, b"x")
    fields[rng.randrange(len(fields))] = rng.choice(choices)


def cut(rng, sheet):
    return sheet[: rng.randrange(len(sheet))]


DAMAGES = (
    change_byte, change_byte, cut, lambda rng, sheet: sheet[:-1],
    with_lines(drop_line), with_lines(double_line), with_lines(empty_line), with_lines(exchange_lines),
    with_lines(with_fields(add_field)), with_lines(with_fields(drop_field)),
    with_lines(with_fields(change_field)), with_lines(with_fields(change_field)),
)


def generated(seed, count):
    """One in six is damaged; one in thirty has hundreds of lines."""
    out = []
    for number in range(count):
        rng = random.Random(f"{seed}/{number}")
        lines = rng.choice((4, 8, 15, 25, 40, 60))
        if number % 30 == 29:
            lines = rng.choice((200, 400, 800))
        sheet, kind = whole(rng, lines), "random"
        if number % 6 == 5:
            sheet, kind = damaged(rng, sheet), "damaged"
        out.append((f"{kind}-{seed}-{number:04}", sheet))
    return out
