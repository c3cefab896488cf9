"""Refusals 1 and 3 to 7 of document 01, read from its text alone.

    refusal(sheet)        -> (number, line), or None for a sheet that passes
    may_join_over(sheet)  -> whether refusal 8 is possible at all

It shares nothing with the definitions of crate `semantics`, so that sheets
which the Rust is not asked about have a second opinion. Refusal 2 depends on
the buffers, not on the sheet.
"""
import re

SHEET_MAX, LINE_MAX, LINES_MAX, NEST_MAX = 65535, 255, 1024, 32
COUNT_MAX = {"con": 128, "need": 128, "frame": 128, "record": 128, "name": 256}

NAME = re.compile(r"[A-Za-z_][A-Za-z0-9_]{0,31}")
KEY = re.compile(r"[A-Za-z_][A-Za-z0-9_]{0,31}(\.[A-Za-z_][A-Za-z0-9_]{0,31})?")
UNSIGNED = re.compile(r"0|[1-9][0-9]*")
SIGNED = re.compile(r"0|-?[1-9][0-9]*")


class NoForm(Exception):
    pass


class Line:
    """What the later checks need of a line: its kind, its references as
    (number, kind wanted, whether 0 is allowed), and its names."""

    def __init__(self, kind):
        self.kind, self.refs, self.names = kind, [], 0


class Fields:
    """Takes a line's fields one after the other."""

    def __init__(self, fields):
        self.fields, self.at = fields, 0

    def take(self):
        if self.at == len(self.fields):
            raise NoForm
        self.at += 1
        return self.fields[self.at - 1]

    def end(self):
        if self.at != len(self.fields):
            raise NoForm

    def matching(self, pattern):
        text = self.take()
        if not pattern.fullmatch(text):
            raise NoForm
        return text

    def word(self, words):
        text = self.take()
        if text not in words:
            raise NoForm
        return text

    def integer(self, low, high):
        value = int(self.matching(SIGNED))
        if not low <= value <= high:
            raise NoForm
        return value

    def count(self):
        return self.integer(0, 16)

    def names(self):
        count = self.count()
        for _ in range(count):
            self.matching(NAME)
        return count

    def ref(self, line, kind, optional=False):
        # Any size has the form; a number too large is not an earlier line.
        line.refs.append((int(self.matching(UNSIGNED)), kind, optional))

    def refs(self, line, kind):
        for _ in range(self.count()):
            self.ref(line, kind)


BASIC = ("int", "byte", "big", "real", "string")


def real_bits(text):
    if not re.fullmatch("[0-9A-F]{16}", text):
        raise NoForm
    if int(text, 16) & (2**63 - 1) > 0x7FF0000000000000:  # a NaN
        raise NoForm


def utf8(text):
    if not re.fullmatch("([0-9A-F]{2})*", text):
        raise NoForm
    try:
        bytes.fromhex(text).decode("utf-8")
    except UnicodeDecodeError:
        raise NoForm


def type_line(f, line):
    word = f.word(BASIC + ("ptr", "array", "tuple"))
    if word == "array":
        f.ref(line, "ty")
    elif word == "tuple":
        f.refs(line, "ty")


def expression_line(f, line):
    word = f.take()
    if word == "int":
        f.integer(-(2**63), 2**63 - 1)
    elif word == "real":
        real_bits(f.take())
    elif word == "str":
        utf8(f.take())
    elif word == "id":
        f.matching(NAME)
    elif word == "qual":
        f.ref(line, "ex")
        f.matching(NAME)
    elif word == "un":
        f.integer(0, 3)
        f.ref(line, "ex")
    elif word == "bin":
        f.integer(0, 18)
        f.ref(line, "ex")
        f.ref(line, "ex")
    elif word == "cast":
        f.ref(line, "ty")
        f.ref(line, "ex")
    elif word == "len":
        f.ref(line, "ex")
    elif word == "alloc":
        f.ref(line, "ex")
        f.ref(line, "ty")
    elif word == "lit":
        f.ref(line, "ex", optional=True)
        f.ref(line, "ty", optional=True)
        f.refs(line, "el")
    elif word != "other":
        raise NoForm


def element_line(f, line):
    word = f.word(("next", "star", "at"))
    f.ref(line, "ex")
    if word == "at":
        f.refs(line, "se")


def need_line(f):
    word = f.word(("adt", "elem", "block", "opaque"))
    if word == "adt":
        f.matching(KEY)
    elif word == "elem":
        f.word(BASIC)
    elif word == "block":
        offsets(f)


def offsets(f):
    f.integer(0, 4096)
    for _ in range(f.count()):
        f.integer(-4096, 4096)


def form(text, number):
    """A line by its form; NoForm is raised where it has none."""
    f = Fields(text.split(","))
    line = Line(f.take())
    kind = line.kind
    if kind == "ty":
        type_line(f, line)
    elif kind == "ex":
        expression_line(f, line)
    elif kind == "el":
        element_line(f, line)
    elif kind == "se":
        f.ref(line, "ex")
        f.ref(line, "ex", optional=True)
    elif kind == "fd":
        f.ref(line, "ty", optional=True)
        f.names()
    elif kind == "pc":
        line.names = f.names()
        f.refs(line, "fd")
    elif kind in ("adt", "pick"):
        f.matching(NAME)
        f.refs(line, "fd")
        if kind == "pick":
            f.refs(line, "pc")
    elif kind == "con":
        f.matching(NAME)
        f.integer(0, 65535)
        f.integer(0, 65535)
        f.ref(line, "ex")
    elif kind == "var":
        f.ref(line, "ty")
        f.ref(line, "ex", optional=True)
        line.names = f.names()
    elif kind == "mod" or kind == "impl" and number == 1:
        f.matching(NAME)
    elif kind == "frame":
        offsets(f)
    elif kind == "need":
        need_line(f)
    elif kind != "end":
        raise NoForm
    f.end()
    return line


def lines_of(sheet):
    """The lines by their forms, and the first number without one, or None."""
    parts = sheet.split(b"\n")
    last = parts.pop()  # empty where the sheet ends in LF
    out = []
    for number, part in enumerate(parts, 1):
        try:
            if len(part) > LINE_MAX or number > LINES_MAX:
                raise NoForm
            out.append(form(part.decode("latin-1"), number))
        except NoForm:
            return out, number
    return out, len(parts) + 1 if last else None


def misused(lines):
    """4: the first line with a reference of the wrong kind, order or use."""
    used = set()
    for number, line in enumerate(lines, 1):
        for ref, kind, optional in line.refs:
            if ref == 0 and optional:
                continue
            if not 0 < ref < number or ref in used or lines[ref - 1].kind != kind:
                return number
            used.add(ref)
    return None


def too_deep(lines):
    """5: the first line above over 32 lines, itself counted."""
    depth = [0]
    for number, line in enumerate(lines, 1):
        depth.append(1 + max((depth[ref] for ref, _, _ in line.refs), default=0))
        if depth[number] > NEST_MAX:
            return number
    return None


def misplaced(lines):
    """6: `mod` in `mod`, `end` outside, or `mod` left open by the last line."""
    inside = False
    for number, line in enumerate(lines, 1):
        if line.kind == "mod" and inside or line.kind == "end" and not inside:
            return number
        inside = line.kind == "mod" or inside and line.kind != "end"
    return len(lines) if inside else None


def too_many(lines):
    """7: the first line at which a count passes its limit."""
    counts = dict.fromkeys(COUNT_MAX, 0)
    for number, line in enumerate(lines, 1):
        if line.kind in counts:
            counts[line.kind] += 1
        elif line.kind == "adt":
            counts["record"] += 1
        elif line.kind == "pick":
            cases = [lines[ref - 1] for ref, kind, _ in line.refs if kind == "pc"]
            counts["record"] += 1 + sum(case.names for case in cases)
        elif line.kind == "var":
            counts["name"] += line.names
        if any(counts[what] > limit for what, limit in COUNT_MAX.items()):
            return number
    return None


def refusal(sheet):
    if len(sheet) > SHEET_MAX:
        return 1, 0
    lines, bad = lines_of(sheet)
    if bad:
        return 3, bad
    for number, check in ((4, misused), (5, too_deep), (6, misplaced), (7, too_many)):
        bad = check(lines)
        if bad:
            return number, bad
    return None


def may_join_over(sheet, limit=256):
    """Whether a fold of a sheet that passes might build a string over the
    limit: an upper bound, in which a name stands for the longest constant of
    that name. The Rust has no such limit and must not be asked then."""
    lines = [line.split(b",") for line in sheet.splitlines()]
    longest = {}  # by constant name
    while True:
        size = [None]  # of the string that a line may fold to; None: no string
        for f in lines:
            value = None
            if f[:2] == [b"ex", b"str"]:
                value = len(f[2]) // 2
            elif f[:2] == [b"ex", b"id"] or f[:2] == [b"ex", b"qual"]:
                value = longest.get(f[-1])
            elif f[:2] == [b"ex", b"cast"]:
                value = max(20, size[int(f[3])] or 0)  # an i64 has up to 20 characters
            elif f[:3] == [b"ex", b"bin", b"0"]:
                left, right = size[int(f[3])], size[int(f[4])]
                value = None if left is None or right is None else left + right
                if value is not None and value > limit:
                    return True
            size.append(value)
        found = dict(longest)
        for f in lines:
            if f[0] == b"con" and size[int(f[4])] is not None:
                found[f[1]] = max(found.get(f[1], 0), size[int(f[4])])
        if found == longest:
            return False
        longest = found
