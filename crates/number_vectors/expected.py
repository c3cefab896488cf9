#!/usr/bin/env python3
"""Writes what `number_vectors` must write: expected.py < stdin > stdout, in this folder.

The results come from Python alone: reals by the machine's doubles (struct takes their bits, and float(n) rounds an integer to
nearest, ties to even), integers by Python's, which have no bound, cut to 64 bits here.
"""
import math, struct, sys


def real(bits):
    return struct.unpack(">d", struct.pack(">Q", bits))[0]


def pattern(x):
    return "7ff8000000000000" if x != x else struct.pack(">d", x).hex()


def divided(a, b):
    if b != 0 or b != b:
        return a / b
    if a == 0 or a != a:
        return math.nan
    return math.copysign(math.inf, a) * math.copysign(1, b)


def clamped(x, bits):
    if x != x:
        return 0
    low, high = -(2 ** (bits - 1)), 2 ** (bits - 1) - 1
    return (high if x > 0 else low) if math.isinf(x) else max(low, min(high, int(x)))


def signed(n, bits):
    n %= 2**bits
    return n if n < 2 ** (bits - 1) else n - 2**bits


def quotient(a, b):
    q = abs(a) // abs(b)
    return q if (a < 0) == (b < 0) else -q


REAL = [
    ("real add", lambda a, b: a + b),
    ("real sub", lambda a, b: a - b),
    ("real mul", lambda a, b: a * b),
    ("real div", divided),
    ("real neg", lambda a: -a),
    ("to big", lambda x: clamped(x, 64)),
    ("to word", lambda x: clamped(x, 32)),
    ("to byte", lambda x: clamped(x, 32) % 256),
]
INT = [
    ("add", lambda a, b: signed(a + b, 64)),
    ("sub", lambda a, b: signed(a - b, 64)),
    ("mul", lambda a, b: signed(a * b, 64)),
    ("div", lambda a, b: signed(quotient(a, b), 64) if b else "failed"),
    ("mod", lambda a, b: a - b * quotient(a, b) if b else "failed"),
    ("shl", lambda a, b: signed(a << b % 64, 64)),
    ("shr", lambda a, b: a >> b % 64),
    ("and", lambda a, b: a & b),
    ("or", lambda a, b: a | b),
    ("xor", lambda a, b: a ^ b),
    ("eq", lambda a, b: int(a == b)),
    ("neq", lambda a, b: int(a != b)),
    ("lt", lambda a, b: int(a < b)),
    ("gt", lambda a, b: int(a > b)),
    ("leq", lambda a, b: int(a <= b)),
    ("geq", lambda a, b: int(a >= b)),
    ("neg", lambda a: signed(-a, 64)),
    ("not", lambda a: int(a == 0)),
    ("bitnot", lambda a: ~a),
    ("word of", lambda n: signed(n, 32)),
    ("byte of", lambda n: n % 256),
    ("real of", float),
]


def shown(v):
    return pattern(v) if isinstance(v, float) else str(v)


def write(op, operands):
    name, f = op
    used = operands[: f.__code__.co_argcount if hasattr(f, "__code__") else 1]
    print(name.ljust(8), *map(shown, used), "gives", shown(f(*used)))


for line in sys.stdin:
    op, a, b = (int(field, 16) for field in line.split())
    if op < 8:
        write(REAL[op], [real(a), real(b)])
    else:
        write(INT[op - 8], [signed(a, 64), signed(b, 64)])
