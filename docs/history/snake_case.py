#!/usr/bin/env python3
"""Respells the repository's own definitions and lemmas: words in snake case, types and facts in camel case, a prime as an apostrophe.

usage: python3 tools/snake_case.py        at the top of a repository, after the port's script

It collects each name with a dash that a file of specs/ or proofs/ declares (at its top, as a field or constructor, or under a `where`
of an answer) and each such name that an import gives with 'as', and writes 'read-feed' as 'read_feed' and 'Poll-outcome' as
'PollOutcome' wherever the name stands: in code outside comments and strings, and between backticks in comments and pages.
Names of goals and steps are the checker's and stay, and so do names that only a library has. It stops before it writes where two names would fall
together.
"""

import glob
import re
import sys

NAME = r"[A-Za-z_][\w'\u2032]*(?:-[\w'\u2032]+)+"
EDGE = r"\w'\u2032\-\u25cc"


def files(pattern):
    return sorted(p for p in glob.glob(pattern, recursive=True) if "/out/" not in p)


def respelled(name):
    name = name.replace("\u2032", "'")
    if name[0].isupper():
        parts = name.split("-")
        return parts[0] + "".join(p[:1].upper() + p[1:] for p in parts[1:])
    return name.replace("-", "_")


def declared(path, text):
    """The names that a file declares."""
    answers = path.endswith(("/Answers.antt", "/Invariants.antt", "/Choices.antt", "/Proof.antt"))
    found = set()
    for line in text.split("\n"):
        code = line.split("--", 1)[0] if line.lstrip().startswith("--") else line
        m = re.match(r"^\s*(?:(?:abbrev|unfoldable|pub|record|data|ruleset)\s+)*(" + NAME + r")\s*(?::|\{|\(|=)", code)
        if m and not re.match(r"^\s", line if not re.match(r"^\s+(?:(?:abbrev|unfoldable|pub)\s|" + NAME + r"\s*:)", line) else "x"):
            name = m.group(1)
            if answers and re.search(r":\s*goal\.", code):
                continue
            if ":" in code or re.search(r"\b(record|data|ruleset)\b", code):
                found.add(name)
        for m in re.finditer(r"\bas (" + NAME + r")", code):
            if re.match(r"^\s*(?:pub )?(?:ghost )?use\b", code):
                found.add(m.group(1))
    return found


def from_libraries(text):
    """The names that a file takes from a library of the kit."""
    found = set()
    for m in re.finditer(r"^\s*(?:pub )?(?:ghost )?use (\S+?)\.\{([^}]*)\}", text, re.M):
        if re.match(r"Rattle\.(?!std\b)", m.group(1)):
            continue
        for part in m.group(2).split(","):
            found.add(part.split(" as ")[0].strip())
    return found


def main():
    paths = files("crates/*/specs/**/*.antt") + files("crates/*/proofs/**/*.antt") + files("crates/*/src/**/*.rt")
    texts = {}
    for p in paths:
        with open(p, encoding="utf-8") as f:
            texts[p] = f.read()
    own, taken = set(), set()
    for p, t in texts.items():
        own |= declared(p, t)
        taken |= from_libraries(t)
    both = sorted(own & taken)
    if both:
        print("also a library's, left as they are: " + ", ".join(both))
    own -= taken
    new = {n: respelled(n) for n in own}
    words = set()
    for t in texts.values():
        words |= set(re.findall(r"(?<![" + EDGE + r"])[A-Za-z_][\w'\u2032-]*", t))
    by = {}
    for n in sorted(own):
        by.setdefault(new[n], []).append(n)
    clash = [f"{v} -> {k}" for k, v in by.items() if len(v) > 1]
    if clash:
        print("names that fall together: " + "; ".join(clash), file=sys.stderr)
        raise SystemExit(1)
    met = sorted(f"{n} -> {new[n]}" for n in own if new[n] in words)
    print("also a word of the code or another name: " + ", ".join(met))

    token = re.compile(r"(?<![" + EDGE + r"])(" + "|".join(re.escape(n) for n in sorted(own, key=len, reverse=True)) + r")(?![" + EDGE + r"])")

    def turn(m):
        return new[m.group(1)]

    def in_ticks(text):
        return re.sub(r"`[^`\n]*`", lambda m: token.sub(turn, m.group(0)), text)

    def turn_line(line, mark):
        cut, quoted = len(line), False
        for i, ch in enumerate(line):
            if ch == '"' and mark == "//":
                quoted = not quoted
            if not quoted and line.startswith(mark, i) and (i == 0 or line[i - 1].isspace()):
                cut = i
                break
        code, comment = line[:cut], line[cut:]
        if mark == "//":
            pieces = re.split(r'("(?:[^"\\]|\\.)*")', code)
            code = "".join(s if s.startswith('"') else token.sub(turn, s) for s in pieces)
        else:
            code = "".join(s if k % 2 else token.sub(turn, s) for k, s in enumerate(re.split(r"(goal\.[\w'-]+|^(?:pub )?(?:abbrev )?(?:pub )?[\w'-]+ : goal\.[\w'-]+)", code)))
        return code + in_ticks(comment)

    count = 0
    for p, t in texts.items():
        mark = "//" if p.endswith(".rt") else "--"
        out = "\n".join(turn_line(line, mark) for line in t.split("\n"))
        if out != t:
            count += 1
            with open(p, "w", encoding="utf-8") as f:
                f.write(out)
    for p in ["README.md"] + files("docs/*.md"):
        with open(p, encoding="utf-8") as f:
            t = f.read()
        out = in_ticks(t)
        if out != t:
            count += 1
            with open(p, "w", encoding="utf-8") as f:
                f.write(out)
    print(f"{len(own)} names, {count} files")


main()
