#!/usr/bin/env python3
"""Brings the repository's own names to Rattle's spelling, after the kit's port.py has run.

    tools/port_names.py          in the repository's top folder: rewrites crates/, crates.txt and docs/ in place

Definitions, laws, fields, constructors and variables of specs/ and proofs/ are in snake case where they were in camel case; types
and facts keep upper camel case, and a dash still joins two names. Eighteen laws whose names would then be those of definitions have
their dash again. The crate `hex`, whose name a library has, is `hex_field`. Names of src/ stay as they are.
"""
import glob
import os
import re

# names of Rattle's library, which port.py has turned as far as they need it
LIBRARY = {"bool_Makes", "is_Within", "mut_Tells", "mut_slice_Tells", "of_Array", "shr_slice_Tells", "uint_Lawful", "uint_Makes", "uint_Tells", "walk_Meets"}
SPECIAL = {"getD-first": "get_or-first", "getD-second": "get_or-second", "getD-stored": "get_or-stored", "getD-zeros": "get_or-zeros", "notNaN": "not_nan"}
# laws beside definitions whose names become theirs
DASHED = """a_byte by_form every_byte first_field goes_on in_group in_order items_at laid_from laid_in laid_on node_at node_lines none_of
own_key row_count same_kind too_long""".split()
TOKEN = re.compile(r"[^\s(){}.,;«»`]+")


def texts():
    for kind in ("specs/**/*.antt", "proofs/**/*.antt", "src/**/*.rt"):
        yield from sorted(p for p in glob.glob("crates/*/" + kind, recursive=True) if "/out/" not in p)


def read(path):
    with open(path, encoding="utf-8") as f:
        return f.read()


def write(path, text):
    with open(path, "w", encoding="utf-8") as f:
        f.write(text)


def is_camel(word):
    return any(re.fullmatch(r"[a-z][a-z0-9_']*[A-Z].*", part) and "::" not in part for part in word.split("-"))


def snake(word):
    if word in SPECIAL:
        return SPECIAL[word]
    return "-".join(re.sub(r"(?<=[a-z0-9])[A-Z]", lambda m: "_" + m[0].lower(), part) if is_camel(part) else part for part in word.split("-"))


def turned(text, names, dashed):
    def one(m):
        word = m[0]
        before = text[m.start() - 1] if m.start() else ""
        if word in names:
            return names[word]
        if dashed and word in dashed and before != ".":
            return dashed[word]
        return word

    return TOKEN.sub(one, text)


def main():
    names = {}
    for path in texts():
        if path.endswith(".antt"):
            for word in TOKEN.findall(re.sub(r"--.*", "", read(path))):
                if is_camel(word) and word not in LIBRARY:
                    names[word] = snake(word)
    dashed = {word: word.replace("_", "-") for word in DASHED}
    for path in texts():
        text = read(path)
        if path.endswith(".rt"):
            new = "\n".join(turned(line, names, {}) for line in text.split("\n"))
        else:
            new = turned(text, names, dashed)
        new = re.sub(r"\bRattle\.hex\.", "Rattle.hex_field.", new)
        if path.endswith(".rt"):
            new = re.sub(r"\buse hex::", "use hex_field::", re.sub(r"(?<![\w:])hex::", "hex_field::", new))
        if new != text:
            write(path, new)
    for path in sorted(glob.glob("docs/*.md")):
        text = read(path)
        new = re.sub(r"`[^`\n]+`", lambda m: "`" + turned(m[0][1:-1], names, {}) + "`", text)
        if new != text:
            write(path, new)
    if os.path.isdir("crates/hex"):
        os.rename("crates/hex", "crates/hex_field")
    listed = read("crates.txt")
    write("crates.txt", "\n".join(line if line.startswith("#") else re.sub(r"\bhex\b", "hex_field", line) for line in listed.split("\n")))


main()
