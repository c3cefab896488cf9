"""Asks the harness that tools/oracle/build makes.

    ask(sheets) -> for each sheet its answer, or None where the Rust gives none
    listing_and_end(answer) -> the listing and the end of allocation
"""
import os
import resource
import subprocess
import sys

ROOT = os.path.dirname(os.path.dirname(os.path.abspath(__file__)))
HARNESS = os.path.join(ROOT, "target", "oracle", "harness")
MEMORY = 2 * 2**30  # the Rust builds a literal whole before it is refused


def limit():
    resource.setrlimit(resource.RLIMIT_AS, (MEMORY, MEMORY))
    resource.setrlimit(resource.RLIMIT_CORE, (0, 0))


def frames(data):
    out, at = [], 0
    while at + 4 <= len(data):
        size = int.from_bytes(data[at : at + 4], "big")
        if at + 4 + size > len(data):
            break
        out.append(data[at + 4 : at + 4 + size])
        at += 4 + size
    return out


def ask(sheets, ptr="ref"):
    if not os.path.exists(HARNESS):
        sys.exit("no oracle: run tools/oracle/build")
    answers = []
    while len(answers) < len(sheets):
        rest = sheets[len(answers) :]
        data = b"".join(len(s).to_bytes(4, "big") + s for s in rest)
        command = [HARNESS, "--mp", "--ptr", ptr, "--batch"]
        run = subprocess.run(command, input=data, capture_output=True, preexec_fn=limit)
        got = frames(run.stdout)
        answers += [None if answer == b"panic\n" else answer for answer in got]
        if len(got) < len(rest):
            answers.append(None)  # it ran out of memory on this one
    return answers


def listing_and_end(answer):
    listing, _, end = answer.rpartition(b"mp,")
    return listing, int(end)
