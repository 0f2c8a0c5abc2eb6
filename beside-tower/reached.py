#!/usr/bin/env python3
"""Which branches of poll, call and completion do the stored runs of `replay` reach?

    beside-tower/reached.py [FILE[:LINE] ..]

In a copy of the repository in a temporary folder, a trap is put into each branch in turn, and `rt try` runs the program, unproved, on its
stored runs. Where it ends well, the branch was not reached. Prints each branch with what came out, and a count.
A branch takes about half a minute. Without FILE the files are those of the balancer, the cache and the docket, and the lists
below them, but for those of getters alone; with LINE only the branch that begins there. At a `?` the branch is the one that goes on.
"""

import pathlib
import re
import shutil
import subprocess
import sys
import tempfile

ROOT = pathlib.Path(__file__).resolve().parent.parent
COPY = pathlib.Path(tempfile.mkdtemp(prefix="reached-")) / "repository"
FILES = [
    *(f"crates/balance/src/{name}.rt" for name in ("feed", "search", "poll", "call", "completion")),
    *(f"crates/ready_cache/src/{name}.rt" for name in ("push", "demote", "poll", "call", "entries")),
    "crates/docket/src/docket.rt",
    "crates/lists/src/lib.rt",
]
TRAP = "if 1 < 2 { unreachable!(); }"
# The status of `rt try` where the program comes to a fault, as a trap is.
FAULT = 4
FUNCTION = re.compile(r"(pub(\([a-z]+\))? )?fn ")
LITERAL = re.compile(r"(= |Err\(|Ok\(|Some\(|=> )[A-Z]\w*(::\w+)? \{$|^[A-Z]\w* \{$|\(Failed \{$|\(PushError \{$")


def trapped(line):
    """The line with a trap, if a branch begins there, and otherwise nothing."""
    text = line.strip()
    if text.startswith(("//", "match ", "impl", "let ")) and not text.endswith(("else {", "?;")):
        return None
    if LITERAL.search(text) or text == "{":
        return None
    if text.endswith("{") or text.endswith("?;"):
        return f"{line} {TRAP}"
    if re.search(r"=> [^{].*,$", text):
        pattern, value = line.split("=> ", 1)
        return f"{pattern}=> {{ {TRAP} {value.rstrip(',')} }}"
    return None


def branches(lines):
    """The lines at which a branch begins, each with its trapped text.

    A function's signature ends at the brace that its body begins with: no line of its contract, which may end in one too. Within a body a
    brace stands alone after a condition of several lines.
    """
    signature = contract = inside = False
    before = ""
    for number, line in enumerate(lines):
        text = line.strip()
        if FUNCTION.match(text):
            signature, contract, inside = True, False, True
        if signature:
            contract = contract or text.startswith(("requires", "ensures"))
            if text == "{" or (text.endswith("{") and not contract):
                signature = False
                yield number, f"{line} {TRAP}"
        elif inside and text == "{" and before.startswith(("&&", "||")):
            yield number, f"{line} {TRAP}"
        elif inside and (with_trap := trapped(line)):
            yield number, with_trap
        before = text


def is_reached(path, text):
    """Whether the program with this text in place of the file goes into the trap."""
    original = path.read_text()
    path.write_text(text)
    program = COPY / "crates" / "replay"
    with open(program / "stdin", encoding="utf-8") as runs:
        out = subprocess.run(["rt", "try", "--steps", "1"], cwd=program, stdin=runs, capture_output=True, text=True, check=False)
    path.write_text(original)
    if out.returncode in (0, FAULT):
        return out.returncode == FAULT
    raise RuntimeError(f"{path}: the program was not built:\n{out.stderr[-2000:]}")


def main():
    shutil.copytree(ROOT, COPY, ignore=shutil.ignore_patterns("target", "out", ".git"))
    counts = {True: 0, False: 0}
    for wanted in sys.argv[1:] or FILES:
        name, _, only = wanted.partition(":")
        path = COPY / name
        lines = path.read_text().split("\n")
        begins = [(number, line) for number, line in branches(lines) if only in ("", str(number + 1))]
        if not begins:
            raise SystemExit(f"{wanted}: no branch begins there")
        for number, line in begins:
            reached = is_reached(path, "\n".join([*lines[:number], line, *lines[number + 1 :]]))
            counts[reached] += 1
            print(f"{name}:{number + 1}: {'reached' if reached else 'NOT REACHED'}: {lines[number].strip()}", flush=True)
    print(f"{counts[True]} branches reached, {counts[False]} not")
    shutil.rmtree(COPY.parent)


main()
