#!/usr/bin/env python3
"""Writes what shape_rows must print: `python3 crates/shape_rows/expected.py < crates/shape_rows/stdin > crates/shape_rows/stdout`.
Sizes and maps are worked out from document 01's words, with each field placed by itself and each map marked offset by offset."""
import sys

lines = [l.split(",") for l in sys.stdin.read().split("\n")[:-1]]
at = lambda r: lines[int(r) - 1]
up = lambda n, a: -(-n // a) * a

def measure(t):
    if t[1] in ("big", "real"): return 8, 8
    if t[1] != "tuple": return 4, 4
    end, align = 0, 4
    for r in t[3:]:
        size, a = measure(at(r))
        end, align = up(end, a) + size, max(align, a)
    return up(max(end, 4), 4), align

def place(off, refs):
    fields = []
    for r in refs:
        _, ty, count, *names = at(r)
        if ty == "0": continue
        size, a = measure(at(ty))
        off = up(off, a)
        for _ in names:
            fields.append((off, size, at(ty)[1] not in ("int", "byte", "big", "real")))
            off += size
    return fields, off

def size_of(base, fields): return up(max([base, 4] + [o + s for o, s, _ in fields]), 4)

def row(number, size, offsets):
    bits = ["0"] * (up(-(-size // 4), 8))
    for off in offsets:
        if 0 <= off and off + 4 <= size: bits[off // 4] = "1"
    text = "".join(bits)
    print(f"{number},{size},{text.count('1')},{bytes(int(text[i:i + 8], 2) for i in range(0, len(text), 8)).hex().upper()}")

pointers = lambda fields: [o for o, _, p in fields if p]

for number, off in enumerate([32, 33, 7, -4], 1): row(number, 36, [off])

for r, l in enumerate(lines, 1):
    if l[0] == "adt":
        fields, _ = place(0, l[3:])
        row(r, size_of(0, fields), pointers(fields))
    if l[0] == "pick":
        k = int(l[2])
        common, end = place(4, l[3:3 + k])
        cases = [at(c) for c in l[4 + k:]]
        variants = [common + place(end, c[3 + int(c[1]):])[0] for c in cases]
        row(r, max(size_of(4, v) for v in [common] + variants), [o for v in [common] + variants for o in pointers(v)])
        for c, v in enumerate(variants): row(c, size_of(4, v), pointers(v))
