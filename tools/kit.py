"""Asks Rattle itself, over the libraries that the last `rt ci` or `rt check` of this checkout built: crates/*/out/rlib.

`rt check` and `rt lib` trust only libraries that they built themselves, and would prove again what `rt ci` has just proved.

    rattle(command, crate, folder, *words) -> the run, whose stdout is all that it said; folder holds the crate's src/, specs/, proofs/
"""
import os
import shutil
import subprocess
import sys

import oracle

KIT = os.path.dirname(os.path.dirname(os.path.realpath(shutil.which("rt") or sys.exit("rt is not in PATH"))))


def crates():
    """What each crate of crates.txt depends on, and the names of static libraries."""
    found, static = {}, set()
    with open(os.path.join(oracle.ROOT, "crates.txt"), encoding="utf8") as file:
        for line in file:
            head, colon, tail = line.partition("#")[0].partition(":")
            if colon:
                name, *kind = head.split()
                found[name] = tail.split()
                static |= {name} if "staticlib" in kind else set()
    return found, static


def below(name, found):
    """The libraries of the repository that a crate depends on, those of these libraries too."""
    names = []
    for dep in found[name]:
        if dep in found:
            names += [it for it in [*below(dep, found), dep] if it not in names]
    return list(dict.fromkeys(names))


def library(name):
    return os.path.join(oracle.ROOT, "crates", name, "out", "rlib", name + ".rlib")


def missing(name):
    """The libraries below a crate that are not built."""
    found, _ = crates()
    return [it for it in below(name, found) if not os.path.isfile(os.path.join(library(it), "format"))]


def of_checks(name):
    """The libraries below a crate that `rt check` built, which stamps them with the sum of their text; `rt ci` stamps none."""
    found, _ = crates()
    return [it for it in below(name, found) if os.path.isfile(os.path.join(os.path.dirname(library(it)), "stamp"))]


def rattle(command, name, folder, *words):
    found, static = crates()
    root = "src/main.rt" if os.path.exists(os.path.join(folder, "src", "main.rt")) else "src/lib.rt"
    given = ["--crate-name", name, root, "-L", f"dependency={KIT}/rlibs", "--links", f"{name}="]
    for dep in ["std", *found[name]]:
        given += ["--extern", f"{dep}={library(dep) if dep in found else f'{KIT}/rlibs/{dep}.rlib'}"]
    for dep in below(name, found):
        given += ["-L", f"dependency={os.path.dirname(library(dep))}"]
    given += ["--antt-project", f"{KIT}/rattle/logic/antt-project.json", "--logic-built", f"{KIT}/logic_built"]
    given += ["--crate-type", "staticlib"] if name in static else []
    how = {"cwd": folder, "stdin": subprocess.DEVNULL, "stdout": subprocess.PIPE, "stderr": subprocess.STDOUT, "errors": "replace"}
    return subprocess.run([f"{KIT}/bin/rattle", command, *given, *words], **how)
