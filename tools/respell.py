#!/usr/bin/env python3
"""Spells this repository's own definitions and lemmas as today's Rattle does.

usage: python3 tools/respell.py [--write]     at the top of the repository

Words of a definition or a lemma are joined by underscores, a type's by capitals, a prime is an apostrophe. Names that the check makes
(returns-.., loop-.., ..-requires), names of std, and names of Rust's source keep their spelling. Without --write it only lists what it would turn.
"""
import collections
import glob
import re
import sys

TOKEN = re.compile(r"[^\s(){}\[\].,;:⌜⌝\"`∷⟨⟩]+")
MADE = re.compile(r"^(returns-|loop-|invariant-|decreases-|slice-bounds-|index-|overflow-|step-in|the-impl|branch-)|-requires(-|$)|-ensures(-|$)|-preserved$|-init$|-smaller$")
DECLARES = re.compile(r"^(\s*)((?:abbrev |unfoldable |opaque |private |irreducible |record |data )*(?:pub )?(?:record |data )?)([^\s:(){}]+)\s*([:({])")
ANSWERS = ("Answers.antt", "Invariants.antt", "Choices.antt", "Proof.antt")


def spelled(name):
    name = name.replace("′", "'")
    if "-" not in name and not re.search(r"[a-z][A-Z]", name):
        return name
    if name[0].isupper():
        return "".join(p[:1].upper() + p[1:] for p in name.split("-"))
    name = re.sub(r"([a-z])([A-Z])(?=[a-z])", lambda m: m[1] + "_" + m[2].lower(), name)
    return name.replace("-++", "_append").replace("-", "_")


def files():
    for kind in ("specs", "proofs"):
        yield from sorted(glob.glob(f"crates/*/{kind}/**/*.antt", recursive=True))


def split(line, mark):
    """The line's code, and its comment."""
    at = re.search(r"(^|\s)" + re.escape(mark) + r"(\s|$)", line)
    return (line[: at.start()], line[at.start() :]) if at else (line, "")


def declared():
    names = collections.defaultdict(set)
    for path in files():
        made = path.endswith(ANSWERS)
        for line in open(path, encoding="utf-8"):
            m = DECLARES.match(split(line, "--")[0])
            if not m or MADE.search(m[3]) or m[3] in ("--", "use"):
                continue
            if made and m[4] != ":":
                continue
            names[m[3]].add(path)
    return names


def foreign(text):
    """Names that the file takes from the toolchain's libraries."""
    own = {c.split("/")[1] for c in glob.glob("crates/*/src")}
    out = set()
    for m in re.finditer(r"use Rattle\.(\w+)[^\n{]*\{([^}]*)\}", text):
        if m[1] not in own:
            out |= {t.strip().split(" as ")[0] for t in m[2].split(",")}
    return out


def turned(text, names, mark, seen, kept):
    skip = foreign(text)
    out = []
    for line in text.split("\n"):
        code, rest = split(line, mark)

        def change(m):
            t = m[0]
            if t in names and t not in skip:
                seen[t] += 1
                return names[t]
            if "-" in t[1:-1] and t not in skip:
                kept[t] += 1
            return t

        out.append(TOKEN.sub(change, code) + re.sub(r"`([^`]*)`", lambda m: "`" + TOKEN.sub(change, m[1]) + "`", rest))
    return "\n".join(out)


def main():
    write = "--write" in sys.argv
    names = {n: spelled(n) for n in declared() if spelled(n) != n}
    old = declared()
    fell = collections.defaultdict(list)
    for n, s in names.items():
        fell[s].append(n)
    for s, ns in sorted(fell.items()):
        if len(ns) > 1 or s in old:
            print("falls together:", s, "<-", ns, "and declared" if s in old else "", [sorted(old[n]) for n in ns], sorted(old[s]) if s in old else "")
    seen, kept = collections.Counter(), collections.Counter()
    for path in list(files()) + sorted(glob.glob("crates/*/src/*.rt")) + sorted(glob.glob("docs/*.md")) + ["README.md"]:
        text = open(path, encoding="utf-8").read()
        if path.endswith(".antt"):
            new = turned(text, names, "--", seen, kept)
        elif path.endswith(".rt"):
            new = turned_clauses(text, names, seen, kept)
        else:
            new = re.sub(r"`([^`\n]*)`", lambda m: "`" + turned(m[1], names, "\0", seen, kept) + "`", text)
        if write and new != text:
            open(path, "w", encoding="utf-8").write(new)
    print(len(names), "names,", sum(seen.values()), "places")
    print("kept:", ", ".join(f"{n} {c}" for n, c in kept.most_common()))


def turned_clauses(text, names, seen, kept):
    """Clauses of a source file: tokens with a dash or a prime stand only there, in comments and in strings."""
    skip = foreign(text)
    out = []
    for line in text.split("\n"):
        code, rest = split(line, "//")

        def change(m):
            t = m[0]
            if t in names and t not in skip and ("-" in t or "′" in t):
                seen[t] += 1
                return names[t]
            if "-" in t[1:-1]:
                kept[t] += 1
            return t

        parts = re.split(r'("(?:[^"\\]|\\.)*")', code)
        parts = [p if i % 2 else TOKEN.sub(change, p) for i, p in enumerate(parts)]
        out.append("".join(parts) + re.sub(r"`([^`]*)`", lambda m: "`" + TOKEN.sub(change, m[1]) + "`", rest))
    return "\n".join(out)


main()
