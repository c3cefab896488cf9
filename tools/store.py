"""Cases as files of a folder, and as one list.

In a folder a case is NAME.sheet, NAME.out (the listing, or `no,N,L`), NAME.img
(image and area as hex, or `no,N,L`; only beside a listing) and NAME.origin.
The list has for each case a line `case,NAME,ORIGIN,SHEET,LISTING,IMAGE`, the
last three being lengths in bytes, and then the three texts as they are.
"""
import os
import re
from collections import namedtuple

Case = namedtuple("Case", "name origin sheet out img")
ORIGINS = ("rust", "checks", "made")
HEADER = re.compile(rb"case,([a-z0-9-]+),([a-z]+),(\d+),(\d+),(\d+)\n")


def refused(out):
    """(number, line) of a refusal, None of a listing."""
    found = re.fullmatch(rb"no,(\d+),(\d+)\n", out)
    return found and (int(found[1]), int(found[2]))


def read(path):
    with open(path, "rb") as file:
        return file.read()


def write(path, data):
    with open(path, "wb") as file:
        file.write(data)


def optional(path):
    return read(path) if os.path.exists(path) else b""


def load(sheet_path):
    """The case of NAME.sheet; `out` is empty where there is no answer."""
    base = sheet_path[: -len(".sheet")]
    origin = optional(base + ".origin").decode().strip() or "made"
    return Case(os.path.basename(base), origin, read(sheet_path), optional(base + ".out"), optional(base + ".img"))


def folder(path):
    names = sorted(name for name in os.listdir(path) if name.endswith(".sheet"))
    return [load(os.path.join(path, name)) for name in names]


def save(path, case):
    base = os.path.join(path, case.name)
    write(base + ".sheet", case.sheet)
    if case.out:
        write(base + ".out", case.out)
        write(base + ".origin", case.origin.encode() + b"\n")
    if case.img:
        write(base + ".img", case.img)


def pack(cases):
    out = b""
    for case in cases:
        header = f"case,{case.name},{case.origin},{len(case.sheet)},{len(case.out)},{len(case.img)}\n"
        out += header.encode() + case.sheet + case.out + case.img
    return out


def unpack(data):
    cases, at = [], 0
    while at < len(data):
        header = HEADER.match(data, at)
        if not header:
            raise ValueError(f"no header at byte {at}")
        at, texts = header.end(), []
        for size in map(int, header.groups()[2:]):
            texts.append(data[at : at + size])
            at += size
        if at > len(data):
            raise ValueError("the last case is cut")
        cases.append(Case(header[1].decode(), header[2].decode(), *texts))
    return cases


def tally(cases):
    """What the program `vectors` prints of these cases where none differs."""
    refusals = [refused(case.out) for case in cases]
    lines = [f"cases,{len(cases)}", f"listed,{refusals.count(None)}", f"imaged,{sum(1 for case in cases if case.img)}"]
    lines += [f"refused,{number},{sum(1 for r in refusals if r and r[0] == number)}" for number in range(1, 14)]
    return "\n".join(lines + ["differ,0", ""]).encode()
