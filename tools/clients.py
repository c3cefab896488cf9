"""Sheets for the benchmark.

    clients(records)      -> a sheet of so many client records, with constants,
                             tables and needs
    largest()             -> such a sheet of 1,024 lines and 65,534 bytes
    lookups(quarters)     -> tables that are full at four quarters, and names that
                             begin alike
    modules(count)        -> so many modules that each have a constant of one name,
                             as Limbo's have PATH, and a global for each
    blocks(count)         -> so many needs of blocks that differ in the last offset
    one_digest()          -> look-ups at their worst: full tables of names that have
                             one digest
    blocks_alike()        -> 128 needs of blocks whose lines have one digest
    deep(depth)           -> a record of a tuple in a tuple, so many deep
"""
import itertools

from sheets import Build, hex_text

NAMES = ("Scan", "Upload", "Round", "Tag", "Reader", "Site", "Queue", "Batch", "Guard", "Shift")
# Of a record: its fields, types and names. A pick has two variants more.
SHAPES = (
    (("string", "tag"), ("big", "at"), ("int", "reader", "site")),
    (("ptr", "next"), ("int", "tries", "state"), ("real", "delay")),
    (("byte", "flags"), ("array", "tags"), ("big", "begun", "ended")),
    (("tuple", "place"), ("string", "owner", "note"), ("int", "count")),
)


def put_type(build, name):
    if name == "array":
        return build.put("ty", "array", build.put("ty", "string"))
    if name == "tuple":
        return build.put("ty", "tuple", 2, build.put("ty", "big"), build.put("ty", "int"))
    return build.put("ty", name)


def put_fields(build, shape, pad):
    return [build.put("fd", put_type(build, of), len(names), *(name + pad for name in names)) for of, *names in shape]


def put_record(build, number, pad):
    name = f"{NAMES[number % len(NAMES)]}{number}{pad}"
    fields = put_fields(build, SHAPES[number % len(SHAPES)], pad)
    if number % 5 == 4:
        cases = [build.put("pc", 1, tag + pad, 1, *put_fields(build, ((of, "value"),), pad)) for tag, of in (("Sent", "big"), ("Failed", "string"))]
        build.put("pick", name, len(fields), *fields, len(cases), *cases)
    else:
        build.put("adt", name, len(fields), *fields)
    build.put("need", "adt", name)


def put_constant(build, number, pad):
    name = f"C{number}{pad}"
    if number % 3 == 0:
        value = build.put("ex", "id", "iota")
    elif number % 3 == 1:
        value = build.put("ex", "bin", 2, build.put("ex", "id", f"C{number - 1}{pad}"), build.put("ex", "int", 60 + number))
    else:
        value = build.put("ex", "str", hex_text(f"round {number}"))
    build.put("con", name, number, 1, value)


def put_table(build, number, pad):
    elements = [build.put("el", "next", build.put("ex", "int", 10 * number + step)) for step in range(3)]
    elements.append(build.put("el", "star", build.put("ex", "int", -1)))
    literal = build.put("ex", "lit", build.put("ex", "int", 24), 0, len(elements), *elements)
    build.put("var", build.put("ty", "array", build.put("ty", "int")), literal, 1, f"table{number}{pad}")


def filled(records, pad=""):
    build = Build()
    build.put("impl", "Client")
    for number in range(records):
        put_record(build, number, pad)
        put_constant(build, number, pad)
        if number % 6 == 0:
            put_table(build, number, pad)
        build.put("var", build.put("ty", ("int", "big", "string")[number % 3]), 0, 1, f"g{number}{pad}")
    return build


def clients(records):
    return filled(records).sheet()


def largest():
    """Records with long names, constants and globals with long strings, and
    lines that nothing refers to for the bytes that are left."""
    build = filled(38, "p" * 24)
    for number in range(80):
        build.put("con", f"S{number}", 1, 1, build.put("ex", "str", "5A" * 124))
    for number in range(25):
        build.put("var", build.put("ty", "string"), build.put("ex", "str", "5A" * 124), 1, f"s{number}")
    while len(build.lines) < 1024:
        left = 65535 - len(build.sheet()) - 8 * (1024 - len(build.lines))
        build.put("ex", "str", "5A" * min(124, left // 2))
    return build.sheet()


def lookups(quarters):
    """Of a quarter: 32 constants, each of which names the first, 17 records and
    15 variants of one of them, with a need each, and 64 globals with a value,
    on 4 lines."""
    build = Build()
    build.put("impl", "Client")
    for number in range(32 * quarters):
        value = build.put("ex", "id", f"{'c' * 26}000") if number else build.put("ex", "int", 1)
        build.put("con", f"{'c' * 26}{number:03}", 1, 1, value)
    for number in range(quarters):
        cases = [build.put("pc", 5, *(f"{'t' * 26}{5 * case + tag:02}" for tag in range(5)), 0) for case in range(3)]
        build.put("pick", f"{'p' * 26}{number}", 0, len(cases), *cases)
        build.put("need", "adt", f"{'p' * 26}{number}")
        for tag in range(15):
            build.put("need", "adt", f"{'p' * 26}{number}.{'t' * 26}{tag:02}")
    for number in range(16 * quarters):
        build.put("adt", f"{'r' * 26}{number:03}", 0)
        build.put("need", "adt", f"{'r' * 26}{number:03}")
    for line in range(4 * quarters):
        names = [f"{'g' * 9}{16 * line + name:03}" for name in range(16)]
        build.put("var", build.put("ty", "int"), build.put("ex", "int", 7), len(names), *names)
    return build.sheet()


def modules(count):
    """At most 127 modules."""
    build = Build()
    build.put("impl", "Client")
    for number in range(count):
        build.put("mod", f"Module{number:03}")
        build.put("con", "PATH", 1, 1, build.put("ex", "str", hex_text(f"/dis/lib/module{number:03}.dis")))
        build.put("end")
    for number in range(count):
        value = build.put("ex", "qual", build.put("ex", "id", f"Module{number:03}"), "PATH")
        build.put("var", build.put("ty", "string"), value, 1, f"path{number:03}")
    return build.sheet()


def blocks(count):
    """`need,block` lines of one size, one count and one length, at most 128."""
    build = Build()
    for number in range(count):
        build.put("need", "block", 4096, 16, *range(1000, 1060, 4), 1060 + 4 * number)
    return build.sheet()


def digest(text):
    """As `words::digest`."""
    number = 0
    for byte in text.encode():
        number = (number * 185 + byte) % 256
    return number


def alike(texts, count, wanted=0):
    """The first so many of these texts that have this digest."""
    return list(itertools.islice((text for text in texts if digest(text) == wanted), count))


def numbered(start):
    return (f"{start}{number:05}" for number in range(100000))


def one_digest():
    """128 constants, each of which names the first, 68 records and 60 variants of
    four of them, with a need each, and 256 globals with a value, on 16 lines."""
    build = Build()
    build.put("impl", "Client")
    constants = alike(numbered("c" * 20), 128)
    for number, name in enumerate(constants):
        value = build.put("ex", "id", constants[0]) if number else build.put("ex", "int", 1)
        build.put("con", name, 1, 1, value)
    for record in alike(numbered("p" * 20), 4):
        keys = alike(numbered(f"{record}.{'t' * 20}"), 15)
        tags = [key.split(".")[1] for key in keys]
        cases = [build.put("pc", 5, *tags[5 * case : 5 * case + 5], 0) for case in range(3)]
        build.put("pick", record, 0, len(cases), *cases)
        for key in (record, *keys):
            build.put("need", "adt", key)
    for name in alike(numbered("r" * 20), 64):
        build.put("adt", name, 0)
        build.put("need", "adt", name)
    names = alike(numbered("g" * 4), 256)
    for line in range(16):
        build.put("var", build.put("ty", "int"), build.put("ex", "int", 7), 16, *names[16 * line : 16 * line + 16])
    return build.sheet()


def blocks_alike():
    """`need,block` lines that differ in the last two offsets."""
    begin = "need,block,4096,16," + ",".join(map(str, range(1000, 1056, 4)))
    lines = (f"{begin},{first},{last}" for first in range(1056, 2056, 4) for last in range(2056, 4092, 4))
    return "".join(line + "\n" for line in alike(lines, 128)).encode()


def deep(depth):
    build = Build()
    line = build.put("ty", "int")
    for _ in range(depth):
        line = build.put("ty", "tuple", 1, line)
    build.put("adt", "T", 1, build.put("fd", line, 1, "a"))
    return build.sheet()
