#!/usr/bin/env python3
"""Says which public calls of the libraries docs/calls.md lacks.

usage: python3 tools/public-calls.py        at the top of the repository

A public call is a `pub fn` that users of a library in crates.txt can name: one of a public type or trait, or one in a public module,
or one that a `pub use` names. Tests do not count, nor do the methods of a trait's impls. It stands in docs/calls.md where a row of its crate has its name in backticks, a method of a type or of a
trait under that: `Docket::note`. The exit status is 1 where one is missing, or where a row names a call that no library has.
"""

import glob
import re
import sys

PAGE = "docs/calls.md"


def libraries():
    """The crates of crates.txt that have a src/lib.rt."""
    for line in open("crates.txt", encoding="utf-8"):
        name = line.split("#", 1)[0].split(":", 1)[0].split()
        if name and glob.glob(f"crates/{name[0]}/src/lib.rt"):
            yield name[0]


def bare(text):
    """The text without comments, strings and characters; their lengths stay."""
    pattern = r'//[^\n]*|"(?:\\.|[^"\\])*"|\'(?:\\.|[^\'\\])\''
    return re.sub(pattern, lambda m: " " * len(m.group()), text)


def closing(text, start):
    """The place of the brace that closes the one at `start`."""
    depth = 0
    for i in range(start, len(text)):
        depth += {"{": 1, "}": -1}.get(text[i], 0)
        if depth == 0:
            return i
    return len(text)


def subject(head):
    """The type that an inherent `impl` is for, or none where the impl is of a trait."""
    head = re.sub(r"\bwhere\b.*", "", head, flags=re.S)
    depth, plain = 0, ""
    for c in head.replace("->", "  "):
        depth -= c == ">"
        if depth == 0:
            plain += c
        depth += c == "<"
    if re.search(r"\bfor\b", plain):
        return None
    return re.search(r"(\w+)\W*$", plain).group(1)


def is_public(path, root):
    """Whether each module on the way to a file is public."""
    modules = path[len(root) :].removesuffix(".rt").removesuffix("/mod").split("/")
    if modules == ["lib"]:
        return True
    parent = f"{root}lib.rt"
    for i, module in enumerate(modules):
        if not re.search(rf"^pub mod {module};", open(parent, encoding="utf-8").read(), re.M):
            return False
        parent = f"{root}{'/'.join(modules[: i + 1])}.rt"
    return True


def brought_out(text):
    """The names that a file's `pub use` lines give its users."""
    for m in re.finditer(r"^pub use ([^;]+);", text, re.M):
        for name in re.split(r"[{},]", m.group(1)):
            if name.strip() and not name.strip().endswith("::"):
                yield re.split(r"::| as ", name.strip())[-1].strip()


def public_names(root):
    """The types, traits and functions of a crate that its users can name."""
    names = set()
    for path in glob.glob(f"{root}**/*.rt", recursive=True):
        if is_public(path, root):
            text = bare(open(path, encoding="utf-8").read())
            names.update(re.findall(r"^pub (?:struct|enum|trait) (\w+)", text, re.M))
            names.update(re.findall(r"^pub (?:const )?(?:unsafe )?(?:extern +)?fn (\w+)", text, re.M))
            names.update(brought_out(text))
    return names


def calls(text):
    """The public calls of a file, each as it is named in the page."""
    blocks = []
    for m in re.finditer(r"^[ ]*(?:(pub )?trait (\w+)|impl\b)([^{;]*)\{", text, re.M):
        head = m.group(3)
        owner = m.group(2) if m.group(2) else subject(head)
        blocks.append((m.end() - 1, closing(text, m.end() - 1), owner, bool(m.group(2)), bool(m.group(1))))
    for m in re.finditer(r"^[ ]*(pub )?(?:const )?(?:unsafe )?(?:extern )?[ ]*fn (\w+)", text, re.M):
        inside = [b for b in blocks if b[0] < m.start() < b[1]]
        if not inside:
            if m.group(1):
                yield m.group(2)
            continue
        _, _, owner, in_trait, public = inside[-1]
        if owner and (public if in_trait else m.group(1)):
            yield f"{owner}::{m.group(2)}"


def public_calls():
    """Each public call, with its crate."""
    for crate in libraries():
        root = f"crates/{crate}/src/"
        names = public_names(root)
        for path in sorted(glob.glob(f"{root}**/*.rt", recursive=True)):
            text = bare(open(path, encoding="utf-8").read())
            if path.endswith("tests.rt") or re.search(r"^#\[test\]", text, re.M):
                continue
            for call in calls(text):
                if call.split("::")[0] in names:
                    yield crate, call


def listed():
    """The calls that the page's rows name, each with its crate."""
    for line in open(PAGE, encoding="utf-8"):
        cells = [c.strip() for c in line.split("|")]
        if len(cells) < 4 or not re.fullmatch(r"`\w+`", cells[1]):
            continue
        for name in re.findall(r"`([\w:]+)`", cells[2]):
            yield cells[1].strip("`"), name


def main():
    page = set(listed())
    code = set(public_calls())
    for crate, call in sorted(code - page):
        print(f"{PAGE} lacks `{call}` of `{crate}`")
    for crate, call in sorted(page - code):
        print(f"{PAGE} names `{call}` of `{crate}`, which the crate has not")
    sys.exit(1 if code != page else 0)


if __name__ == "__main__":
    main()
