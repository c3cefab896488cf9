"""Random sheets in number, many of them at a limit of document 01; the same
seed gives the same sheets.

    trials(seed, first, count) -> a list of Trial
    answered(trials, first)    -> for each its Case, or None

Most sheets are those of sheets.py. The families below add what these seldom
meet: references that nest 32 deep, counts and lengths at their limits, strings
of 256 bytes, spans up to 2^63 - 1, listings of 65,536 bytes. The Rust has no
limit on strings, and is not asked about spans over 65,536 indices. There it is
asked about a sheet whose answer the trial's own follows from: the same sheet
without the last lines, which hold the fault, or with another value that is
pending where the literal is.
"""
import random
from collections import namedtuple

import answers
import checks
import oracle
import store
from edges import listing_of, put_alloc, sheet_of
from sheets import TYPES, Maker, damaged, hex_text, whole

# asked: the sheet that the Rust is asked about; None: none. then: the refusal
# where the Rust refuses nothing, or is not asked; None: the Rust's answer.
Trial = namedtuple("Trial", "kind sheet asked then")

TOP, LOW = 2**63 - 1, -(2**63)
WIDE = 65536  # indices of a span that the Rust is still asked about


def plain(kind, sheet):
    return Trial(kind, sheet, sheet, None)


def begun(rng):
    """A short sheet, to be gone on with, in which no string can be too long."""
    while True:
        maker = Maker(rng)
        maker.wild = 0.0
        if rng.random() < 0.7:
            maker.fill(rng.choice((0, 4, 8, 15)))
        if not checks.may_join_over(maker.sheet()):
            return maker


def small_type(maker):
    return maker.put("ty", maker.rng.choice(TYPES))


# ---- strings of about 256 bytes


def joined(maker, size):
    """A tree of joins with so many bytes in all."""
    rng = maker.rng
    if size <= 124 and rng.random() < 0.6:
        wide = rng.choice(("é", "€", "\U00010000")) if size >= 4 else ""
        text = wide + "a" * (size - len(wide.encode()))
        return maker.put("ex", "str", hex_text(text))
    left = rng.randint(max(0, size - 250), min(size, 250)) if size > 1 else 0
    return maker.put("ex", "bin", 0, joined(maker, left), joined(maker, size - left))


def under(maker, line):
    """A line over it that folds it."""
    rng = maker.rng
    form = rng.randrange(7)
    if form == 0:
        return maker.put("ex", "len", line)
    if form == 1:
        return maker.put("ex", "un", rng.randrange(4), line)
    if form == 2:
        return maker.put("ex", "bin", rng.randrange(1, 19), line, maker.put("ex", "int", 1))
    if form == 3:
        return maker.put("ex", "bin", rng.randrange(19), maker.put("ex", "int", 1), line)
    if form == 4:
        return maker.put("ex", "cast", small_type(maker), line)
    return line


def in_literal(maker, line):
    """A literal, or an allocation, that folds the line first of all."""
    rng = maker.rng
    form = rng.randrange(4)
    if form == 0:
        return maker.put("ex", "alloc", line, small_type(maker))
    if form == 1:
        return maker.put("ex", "lit", line, 0, 0)
    if form == 2:
        element = maker.put("el", rng.choice(("next", "star")), line)
    else:
        select = maker.put("se", line, 0)
        element = maker.put("el", "at", maker.put("ex", "int", 1), 1, select)
    return maker.put("ex", "lit", 0, 0, 1, element)


def strings(rng):
    maker = begun(rng)
    before = maker.sheet()
    size = rng.choice((250, 254, 255, 256, 256, 256, 257, 257, 258, 300, 400))
    line = under(maker, joined(maker, size))
    form = rng.randrange(4)
    if form == 0:  # a failure on the left: the string is not built
        line = maker.put("ex", "bin", 0, maker.put("ex", "other"), line)
        return plain_con(maker, line)
    if form == 1:
        last = maker.put("con", maker.name(), 1, 1, line)
        return fault(maker, None, (8, last) if size > 256 else None)
    if form == 2:
        line = in_literal(maker, line)
    last = maker.put("var", small_type(maker), line, 1, "v")
    return fault(maker, before, (8, last) if size > 256 else None)


def plain_con(maker, line):
    maker.put("con", maker.name(), 1, 1, line)
    return plain("unmet", maker.sheet())


def fault(maker, before, then):
    """Constants come before all `var` lines, so a fault in one needs no answer of the Rust."""
    sheet = maker.sheet()
    return plain("strings", sheet) if then is None else Trial("strings", sheet, before, then)


# ---- allocations and literals


def allocs(rng):
    maker = begun(rng)
    edge = rng.choice((0, 2**31, -(2**31), 8192, 16384, 65536, TOP, LOW))
    length = min(max(edge + rng.randint(-2, 2), LOW), TOP)
    put_alloc(maker, length, rng.choice(TYPES), maker.name())
    if rng.random() < 0.3:
        put_alloc(maker, rng.choice((0, 1, -1, 2**31)), "byte", maker.name())
    return plain("allocs", maker.sheet())


def some_index(rng):
    near = rng.choice((0, 0, 0, 5, 9, 1023, 1024, WIDE, 2**31, 2**32, TOP, LOW))
    return min(max(near + rng.randint(-3, 3), LOW), TOP)


def spans(rng):
    """The selectors of an element, as pairs of low and high."""
    out = []
    for _ in range(rng.choice((1, 1, 1, 2, 3))):
        low = some_index(rng)
        high = low if rng.random() < 0.4 else some_index(rng) if rng.random() < 0.5 else min(low + rng.randint(0, 9), TOP)
        out.append((low, high))
    return out


def outcome(elements, size):
    """What becomes of a literal whose size is an integer or None and whose
    elements are None (the next index), `star`, or spans, worked out by the
    ends of the spans: `pending`, `whole`, 11 or 12."""
    at = end = 0
    for element in elements:
        if element == "star":
            continue
        for low, high in [(at, at)] if element is None else element:
            if low > high:
                continue
            if low < 0 or low > TOP:
                return "pending"
            at = high + 1
            end = max(end, at)
    if size is not None and size < 0:
        return "pending"
    if size is not None and end > size:
        return 11
    return 12 if max(end, size or 0) > 1024 else "whole"


def put_literal(maker, elements, size):
    rng, lines = maker.rng, []
    for element in elements:
        value = rng.choice((maker.int, maker.int, maker.real, maker.string))()
        if element is None or element == "star":
            lines.append(maker.put("el", element or "next", value))
            continue
        selects = []
        for low, high in element:
            first = maker.put("ex", "int", low)
            single = low == high and rng.random() < 0.8
            selects.append(maker.put("se", first, 0 if single else maker.put("ex", "int", high)))
        lines.append(maker.put("el", "at", value, len(selects), *selects))
    length = maker.put("ex", "int", size) if size is not None else 0
    of = small_type(maker) if rng.random() < 0.3 else 0
    return maker.put("ex", "lit", length, of, len(lines), *lines)


def literals(rng):
    maker = begun(rng)
    before = maker.sheet()
    elements = []
    for _ in range(rng.choice((0, 1, 1, 2, 3, 5, 16))):
        pick = rng.random()
        elements.append(None if pick < 0.4 else "star" if pick < 0.5 else spans(rng))
    size = rng.choice((None, None, some_index(rng), 1024 + rng.randint(-3, 3)))
    of = small_type(maker)
    maker.put("var", of, put_literal(maker, elements, size), 1, "v")
    sheet = maker.sheet()
    ends = [span for element in elements if isinstance(element, list) for span in element]
    if max([size or 0] + [max(high, high - low) for low, high in ends if low <= high]) <= WIDE:
        return plain("literals", sheet)
    result = outcome(elements, size)
    if result == "pending":
        maker.lines[of:] = ["ex,other", f"var,{of},{of + 1},1,v"]
        return Trial("literals", sheet, maker.sheet(), None)
    return Trial("literals", sheet, before, (result, len(maker.lines)))


# ---- references, modules, counts and lengths


def nested(rng):
    """A chain of references of about 32 lines."""
    maker = begun(rng)
    depth = rng.randint(29, 33)
    if rng.random() < 0.3:
        line = small_type(maker)
        for level in range(depth - 2):
            # The Rust takes time that doubles with each tuple in a tuple.
            if level % 7 == 6 or rng.random() < 0.3:
                line = maker.put("ty", "array", line)
            else:
                line = maker.put("ty", "tuple", 2, *rng.sample((line, small_type(maker)), 2))
        maker.put("adt", "T", 1, maker.put("fd", line, 2, "a", "b"))
        return plain("nested", maker.sheet())
    line = rng.choice((maker.int, maker.real, maker.string))()
    for _ in range(depth - 2):
        form = rng.randrange(8)
        if form < 3:
            line = maker.put("ex", "un", rng.choice((0, 0, 0, 1, 2)), line)
        elif form < 5:
            line = maker.put("ex", "cast", small_type(maker), line)
        elif form < 7:
            line = maker.put("ex", "bin", rng.randrange(4), *rng.sample((line, maker.int()), 2))
        else:
            line = maker.put("ex", "len", line) if rng.random() < 0.2 else maker.put("ex", "un", 0, line)
    if rng.random() < 0.5:
        maker.put("con", maker.name(), 1, 1, line)
    else:
        maker.put("var", small_type(maker), line, 1, maker.name())
    return plain("nested", maker.sheet())


def modules(rng):
    maker = begun(rng)
    for _ in range(rng.randint(1, 8)):
        form = rng.random()
        if form < 0.4:
            maker.put("mod", rng.choice("MN"))
        elif form < 0.8:
            maker.put("end")
        else:
            maker.con()
    return plain("modules", maker.sheet())


def counts(rng):
    """Lines of one kind up to their limit, in and out of modules."""
    maker = Maker(rng)
    kind = rng.choice(("con", "need", "frame", "adt", "pick", "var"))
    limit = 256 if kind == "var" else 128
    left = limit + rng.choice((-1, 0, 0, 1, 2))
    while left > 0:
        if rng.random() < 0.05:
            maker.put("mod", "M")
            maker.put("end")
        if kind == "con":
            maker.put("con", maker.name() + str(left), 1, 1, maker.put("ex", "id", "iota"))
        elif kind == "need":
            maker.count["need"] = 0
            maker.need()
        elif kind == "frame":
            maker.put("frame", *maker.offsets())
        elif kind == "adt" or left == 1:
            maker.put("adt", f"T{rng.randrange(200)}", 0)
        elif kind == "pick":
            tags = rng.randint(0, min(16, left - 1))
            case = maker.put("pc", tags, *(f"t{rng.randrange(9)}" for _ in range(tags)), 0)
            maker.put("pick", f"T{rng.randrange(200)}", 0, 1, case)
            left -= tags
        else:
            names = rng.randint(1, min(16, left))
            maker.put("var", small_type(maker), 0, names, *(f"g{rng.randrange(300)}" for _ in range(names)))
            left -= names - 1
        left -= 1
    return plain("counts", maker.sheet())


def lengths(rng):
    """A line of about 255 bytes, about 1,024 lines, or about 65,535 bytes."""
    maker = begun(rng)
    form = rng.randrange(3)
    if form == 0:
        size = rng.randint(252, 257)
        if rng.random() < 0.5:
            maker.put("ex", "str", "4" * (size - 7))
        else:
            maker.put("fd", 0, 8, *["a" * 32] * 7, "b" * (size - 6 - 7 * 33 - 1))
    elif form == 1:
        for _ in range(rng.randint(1022, 1026) - len(maker.lines)):
            maker.put(*rng.choice((("ty", "int"), ("ex", "other"), ("fd", 0, 0), ("ex", "int", 1))))
    else:
        return plain("lengths", maker.sheet() + sheet_of(65536 + rng.randint(-3, 2) - len(maker.sheet())))
    return plain("lengths", maker.sheet())


def large(rng):
    """A listing of about 65,536 bytes, and sometimes a fault behind it."""
    if rng.random() < 0.3:
        maker = listing_of(65536 + rng.randint(-2, 2))
    else:
        maker, number, left = Maker(rng), 0, rng.randint(58000, 74000)
        while left > 0:
            size = rng.randint(300, 1024)
            value = rng.choice((maker.int, maker.int, maker.real, maker.string))()
            text = maker.lines[-1].rpartition(",")[2]
            literal = maker.put("ex", "lit", maker.put("ex", "int", size), 0, 1, maker.put("el", "star", value))
            maker.put("var", small_type(maker), literal, 1, f"w{number}")
            number += 1
            left -= size * (len(text) + 1 if maker.lines[value - 1][3:6] != "str" else 11 + len(text))
    if rng.random() < 0.2:
        put_alloc(maker, rng.choice((-1, 2**31)))
    return plain("large", maker.sheet())


FAMILIES = (strings, allocs, literals, literals, nested, modules, counts, lengths)


def trial(seed, number):
    rng = random.Random(f"{seed}/trial/{number}")
    if number % 200 == 0:
        return large(rng)
    if number % 3 == 0:
        made = rng.choice(FAMILIES)(rng)
        if made.then or made.asked != made.sheet or rng.random() < 0.9:
            return made
        return plain("damaged", damaged(rng, made.sheet))
    sheet = whole(rng, rng.choice((4, 8, 15, 25, 40, 60)) if number % 40 else rng.choice((200, 400, 800)))
    if number % 6 == 1:
        return plain("damaged", damaged(rng, sheet))
    return plain("random", sheet)


def trials(seed, first, count):
    return [trial(seed, number) for number in range(first, first + count)]


def settled(made, name):
    """The case of a trial that needs no answer of the Rust; None of others."""
    refusal = checks.refusal(made.sheet)
    if refusal:
        return store.Case(name, "checks", made.sheet, b"no,%d,%d\n" % refusal, b"")
    if made.asked is None and made.then:
        return store.Case(name, "made", made.sheet, b"no,%d,%d\n" % made.then, b"")
    return None


def asked_of(made):
    """The sheet to ask about; None where a string might be too long, unless it is known not to be built."""
    if made.asked == made.sheet and made.kind != "unmet" and checks.may_join_over(made.sheet):
        return None
    return made.asked


def answered(made, first):
    """For each trial its case, or None where there is no answer; names count from the first."""
    names = [f"{one.kind}-{number}" for number, one in enumerate(made, first)]
    cases = [settled(one, name) for one, name in zip(made, names)]
    waiting = [number for number, case in enumerate(cases) if case is None and asked_of(made[number]) is not None]
    for number, answer in zip(waiting, oracle.ask([made[number].asked for number in waiting])):
        if answer is None:
            continue
        one, origin, (out, img) = made[number], "rust", answers.of_rust(answer)
        if one.then and store.refused(out) in (None, (13, 0)):  # 13 is tried last
            origin, out, img = "made", b"no,%d,%d\n" % one.then, b""
        cases[number] = store.Case(names[number], origin, one.sheet, out, img)
    return cases
