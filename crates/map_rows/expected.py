#!/usr/bin/env python3
"""Writes what map_rows must print: `python3 crates/map_rows/expected.py > crates/map_rows/stdout`.
A map is made by marking words one offset at a time, as document 01 and the Rust say it, and not byte by byte as the crate does."""

def row(size, offsets, room=4):
    words = -(-size // 4)
    bits = ["0"] * (-(-words // 8) * 8)
    for off in offsets:
        if 0 <= off and off + 4 <= size:
            bits[off // 4] = "1"
    text = "".join(bits)
    held = [int(text[i:i + 8], 2) for i in range(0, len(text), 8)][:room]
    print(f"{size},{text.count('1')},{bytes(held + [0xA5] * (room - len(held))).hex()}")

def aligned(off, align):
    multiple = off
    while align and multiple % align:
        multiple += 1
    print(f"{off},{align},{multiple if align else 0}")

row(36, [32])
row(36, [33])
row(36, [32], room=1)
for size in 0, 1, 3, 4:
    row(size, [0])
row(33, [29])
row(12, [8, 0, 8, 0])
row(8, [3, 5, 7])
row(8, [-1, -4, -4096, -2**31])
row(128, [2**31 - 1, 124, 125])
row(4096, [4092, 0, 4, 28, 32, 60, 64, 4093, 4096, -4096, 2048, 2049, 2051, 1000, 1004, 3], room=130)
for off, align in (0, 8), (1, 8), (8, 8), (9, 4), (5, 1), (7, 12), (5, 0), (2**32 - 1, 8):
    aligned(off, align)
