"""The wrong programs of crates/NAME/must-fail/*.edit, and where the prover refuses each.

An edit holds one or more wrong programs, each behind a line `# PROGRAM: what is wrong`, with the lines `file:`, `old:` and `new:`
that `rt` applies together. One check of the crate then tries them all: they change different functions, and the prover says of
each function which of its facts it refuses. A program that changes a definition or a contract, on which facts of other functions
rest, is alone in its edit.
"""
import glob
import os
import re

import oracle

# What the prover says of a fact that only rests on another one that it refused.
RESTS = "was not admitted"
# And of a proof file that no longer fits its function.
MISFITS = re.compile(r"not in scope|can be named from here|has no (?:field )?`|binders, but its type has room|too many arguments")


def read(path):
    with open(path, encoding="utf8") as handle:
        return handle.read()


class Program:
    """A wrong program: its name, what is wrong, and its replacements, each a file, the old text and the new one."""

    def __init__(self, name, wrong):
        self.name = name
        self.wrong = wrong
        self.pairs = []


def programs(text):
    """The wrong programs of an edit."""
    found, file, old = [], "", ""
    for line in text.splitlines():
        head = re.fullmatch(r"# ([a-z0-9_]+): (.+)", line)
        if head:
            found.append(Program(head[1], head[2]))
        elif line.startswith("file: "):
            file = line[6:]
        elif line.startswith("old: "):
            old = line[5:]
        elif line.startswith("new:"):
            new = line[4:]
            found[-1].pairs.append((file, old, new[1:] if new.startswith(" ") else new))
    return found


HEAD = re.compile(r'^ *(?:pub(?:\(crate\))? )?(?:extern "C" )?fn ([a-z0-9_]+)', re.M)


def owner(crate, file, source, at):
    """The function of a source file that place `at` stands in, by its path, or None before the first."""
    heads = list(HEAD.finditer(source, 0, source.find("\n", at)))
    if not heads:
        return None
    module = re.sub(r"(^|/)(lib|main|mod)$", "", file[len("src/") : -len(".rt")])
    blocks = list(re.finditer(r"^impl(?:<[^>]*>)? ([A-Za-z0-9]+)(?:<([A-Za-z0-9]+)>)?(?: for ([A-Za-z0-9]+))?|^}", source[:at], re.M))
    block = blocks[-1] if blocks else None
    # of a trait's impl the prover says the type, then the trait
    inside = block and "".join(part or "" for part in (block[3], block[1], block[2])) or None
    return "::".join(part for part in [crate, *module.split("/"), inside, heads[-1][1]] if part)


def users(crate, folder, constant):
    """The functions that name a constant of the crate."""
    found = set()
    for path in glob.glob(os.path.join(folder, "src", "**", "*.rt"), recursive=True):
        source = read(path)
        for use in re.finditer(rf"\b{constant}\b", source):
            found.add(owner(crate, os.path.relpath(path, folder), source, use.start()))
    return found


def owners(crate, folder, program):
    """The functions that a program changes, those that name a constant among them; none for a definition."""
    found = set()
    for file, old, _ in program.pairs:
        if file.startswith("src/"):
            constant = re.search(r"\b([A-Z_]+): \w+ = ", old)
            source = read(os.path.join(folder, file))
            found |= users(crate, folder, constant[1]) if constant else {owner(crate, file, source, source.index(old))}
    return sorted(found - {None})


def applied(folder, text):
    """The files of a crate's folder that an edit changes, as it makes them. Each old text stands there once."""
    made = {}
    for program in programs(text):
        for file, old, new in program.pairs:
            source = made.get(file) or read(os.path.join(folder, file))
            if source.count(old) != 1:
                raise ValueError(f"{program.name}: {old!r} stands in {file} {source.count(old)} times")
            made[file] = source.replace(old, new)
    return made


def in_cycle(folder, name, function):
    """Whether the source names this cycle at this function."""
    head = re.compile(rf"^ *#\[cycle\({name}\)\]\n(?: *#\[.*\n)* *(?:pub )?fn {function}\b", re.M)
    return any(head.search(read(path)) for path in glob.glob(os.path.join(folder, "src", "**", "*.rt"), recursive=True))


def proof_of(folder, function):
    """The folder of a function's proof, which functions that call each other share under their cycle's name; it may be absent."""
    parts = function.split("::")[1:]
    above = os.path.join(folder, "proofs", *parts[:-1])
    for shared in glob.glob(os.path.join(above, "+*")):
        name = os.path.basename(shared)[1:]
        if name == parts[-1] or in_cycle(folder, name, parts[-1]):
            return os.path.relpath(shared, folder)
    return os.path.join(os.path.relpath(above, folder), parts[-1])


def errors(log):
    """The prover's errors on a crate: the file, and what it says there."""
    return re.findall(r"^(?:\./)?(\S+?):\d+:\d+: error: (.*)$", log, re.M)


def is_fact(said):
    """Whether an error is of a fact that is refused itself."""
    return RESTS not in said and not MISFITS.search(said)


def refused_at(folder, log, function):
    """What the prover says against a fact of this function itself, or None."""
    told = re.search(rf"((?:^(?!fn ).*\n)*)^fn {function}: (?:not proved|no proof)(.*)$", log, re.M)
    if not told:
        return None
    proof = proof_of(folder, function)
    for file, said in errors(log):
        if os.path.dirname(file) == proof and is_fact(said):
            return said.split(":")[0].strip("`")
    # goals that the prover tries by itself, named in the function's line or in those before it
    searched = re.search(r"`search` did not prove `(\S+?)`", told[2]) or re.search(r"it is not proved that .* \(`(\S+?)`\)", told[1])
    return searched and searched[1]


def left(log):
    """A goal that the prover tried by itself and left, with its function, or None."""
    told = re.search(r"^fn (\S+): no proof:.*`search` did not prove `(\S+?)`", log, re.M)
    return told and f"`{told[2]}` of {told[1]}"


def edits(crate):
    return sorted(glob.glob(os.path.join(oracle.ROOT, "crates", crate, "must-fail", "*.edit")))
