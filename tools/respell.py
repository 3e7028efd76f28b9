#!/usr/bin/env python3
"""Brings the repository's own names to today's spelling. Run once, at the top, right after port.py.

- Definitions, lemmas and variables in camel case become snake case: kindAt is kind_at.
- Fields, constructors and definitions of specs/ with dashes become snake case: not-before is not_before.
- The crate regex is named posix, since the kit has a library of the name regex.
- The texts of must-fail edits follow: these names, and the spelling that port.py gave to names of the library.

Functions of src/, exported names, strings, inputs and outputs are left alone.
"""

import glob
import os
import re
import subprocess
import sys

IDENT = r"[^\s(){}\[\].,;:\"⌜⌝λ@`∷]+"
TOKEN = re.compile(r"(?<![^\s(){}\[\].,;:\"⌜⌝λ@`∷])" + IDENT)
CAMEL = re.compile(r"^[a-z]")
HUMP = re.compile(r"(?<=[a-z0-9])[A-Z]")
# Names that would fall together with another one.
APART = {
    "seen_apart": "seen_apart_lem",
    "rank_below": "rank_below_lem",
    "is-or": "of_kind_or",
    "holds-some": "holds_for_some",
    "some-cut": "has_cut",
    "work-size": "size_of_work",
}
# What port.py calls names of the library and of the kit's logic now, for the texts of edits.
LIBRARY = {"getD": "get_or", "orElse": "or_else", "bitAnd": "bit_and"}


def files(ending):
    return sorted(p for p in glob.glob("crates/*/**/*" + ending, recursive=True) if "/out/" not in p)


def read(p):
    with open(p, encoding="utf-8") as f:
        return f.read()


def write(p, text):
    with open(p, "w", encoding="utf-8") as f:
        f.write(text)


def tokens(text):
    return set(TOKEN.findall(text))


def declared():
    """Dashed names that are fields, constructors or definitions of specs/."""
    found = set()
    for p in files(".antt"):
        inside = False
        for line in read(p).split("\n"):
            if re.match(r"\S", line):
                inside = bool(re.match(r"(?:abbrev |unfoldable |pub )*(?:data|record) ", line))
                m = re.match(r"(?:abbrev |unfoldable |pub )*(%s) (?:\([^)]*\) |\{[^}]*\} )*: " % IDENT, line)
                if m and "/specs/" in p and not inside:
                    found.add(m.group(1))
            elif inside:
                m = re.match(r"  (?:pub )?(%s) : " % IDENT, line)
                if m:
                    found.add(m.group(1))
    return {n for n in found if "-" in n and re.fullmatch(r"[a-z][a-z0-9'-]*", n)}


def names():
    seen = set()
    for p in files(".antt") + files(".rt"):
        seen |= tokens(read(p))
    to = {}
    for n in seen:
        if CAMEL.match(n) and HUMP.search(n):
            to[n] = HUMP.sub(lambda m: "_" + m.group(0).lower(), n)
    for n in declared():
        to[n] = n.replace("-", "_")
    return to | APART, seen


def respell(text, to, pages=False):
    return TOKEN.sub(lambda m: to.get(m.group(0), m.group(0)), text)


def code(line):
    """The part of a line of source that is no comment."""
    i = line.find("//")
    return len(line) if i < 0 else i


def turn_source(text, to):
    camel = {a: b for a, b in to.items() if HUMP.search(a)}
    out = []
    for line in text.split("\n"):
        k = code(line)
        body = line[:k] if '"' in line[:k] else respell(line[:k], to)
        out.append(body + respell(line[k:], camel))
    return "\n".join(out).replace("Rattle.regex.", "Rattle.posix.")


def turn_antt(text, to):
    camel = {a: b for a, b in to.items() if HUMP.search(a)}
    out = []
    for line in text.split("\n"):
        m = re.search(r"(?:^|\s)--(?:\s|$)", line)
        k = m.start() if m else len(line)
        out.append(respell(line[:k], to) + respell(line[k:], camel))
    return "\n".join(out).replace("Rattle.regex.", "Rattle.posix.")


def old_spelling(landed):
    """How port.py respelled each name of the repository, read off the two forms of the specs."""
    pairs = {}
    for p in files(".antt"):
        if "/specs/" not in p:
            continue
        r = subprocess.run(["git", "show", f"{landed}:{p}"], capture_output=True, text=True)
        if r.returncode:
            continue
        first, second = r.stdout.split("\n"), read(p).split("\n")
        a = [l for l in first if l.strip() and not l.startswith(("use ", "--"))]
        b = [l for l in second if l.strip() and not l.startswith(("use ", "--"))]
        if len(a) != len(b):
            continue
        for x, y in zip(a, b):
            s, t = TOKEN.findall(x.replace("′", "'")), TOKEN.findall(y)
            if len(s) == len(t):
                for n, m in zip(s, t):
                    if n != m and re.match(r"[A-Za-z]", n):
                        pairs[n] = m
    return pairs


def turn_edit(text, to, ported):
    lines = []
    for line in text.split("\n"):
        if line.startswith(("old: ", "new: ")):
            head, body = line[:5], line[5:]
            body = body.replace("′", "'")
            body = respell(body, ported)
            body = re.sub(r"\(([\w']+(?: \.[\w'-]+)+)\)", lambda m: m.group(1).replace(" .", "."), body)
            body = re.sub(r"(?<=[\w')]) \.(?=[a-z])", ".", body)
            line = head + respell(body, to)
        lines.append(line)
    return "\n".join(lines)


def main():
    landed = sys.argv[1] if len(sys.argv) > 1 else "HEAD"
    to, seen = names()
    taken = {}
    for a, b in sorted(to.items()):
        if b in seen and b not in to:
            print(f"look: {a} becomes {b}, which is there already")
        if b in taken:
            print(f"look: {a} and {taken[b]} both become {b}")
        taken[b] = a
    ported = dict(LIBRARY) | old_spelling(landed)
    for p in files(".edit"):
        write(p, turn_edit(read(p), to, ported))
    for p in files(".antt"):
        write(p, turn_antt(read(p), to))
    for p in files(".rt"):
        write(p, turn_source(read(p), to))
    if os.path.isdir("crates/regex"):
        os.rename("crates/regex", "crates/posix")
        write("crates.txt", re.sub(r"\bregex\b", "posix", read("crates.txt")))
    with open("/tmp/respelled.txt", "w", encoding="utf-8") as f:
        for a, b in sorted(to.items()):
            f.write(f"{a} {b}\n")
    print(f"{len(to)} names")


main()
