#!/usr/bin/env python3
"""Lists the places of src/ where an older form may stand, by the points of docs/DESIGN-PASS.md.

    python3 tools/places.py          the number of lines for each point
    python3 tools/places.py 3        the lines themselves for one point

A line that is listed is a place to look at and no verdict: the page says which of them are places, and which are not, and why.
"""
import collections
import pathlib
import re
import sys

ROOT = pathlib.Path(__file__).resolve().parent.parent
SOURCES = sorted(ROOT.glob("crates/*/src/*.rt"))

# a flag in a struct; a function that answers a number of one of the small types; a match that wraps again what it took apart, or makes a number of it;
# a number that is tested for a case
NUMBERS = [
    r"^\s*(pub )?\w+: bool,",
    r"^\s*(pub |pub\(crate\) )?fn \w+(<.*>)?\(.*\) -> u(8|16|32|64)( \{)?$",
    r"^\s*(Ok|Some|Err)\(.*\) => (Ok|Some|Err|return|\d)",
    r"^\s*(None|\w+::\w+) => (None|Err|return|\d)",
    r"\b(rest|places|heads|alone|most)\b (==|<=|>) \d",
]
LOOPS = [r"^\s*while ", r"^\s*for \w+ in [^{]*\.\.", r"\+= 1;", r"saturating_add\(1\)"]
BY_HAND = [
    r"^impl.*\b(From|TryFrom|FromStr|Display|Debug|PartialEq|Eq|Ord|Clone|Default|At)\b.* for ",
    r"fn \w*(_code|_word|_named|digit_value|joined|parted|accepted|or_zero|places|_outcome|start|bytes)\(",
    r"\[0\] == .*\[0\]",
]
BUFFERS = [
    r"= \[0(u8)?; *\w+\];",
    r"\bm: (u16|usize)\b",
    r"\b(count|len|length|left|next): (u16|usize),",
    r"\[[\w:]*\.\.[\w. ()]*\]",
]
STEPS = [r"\btrait \w+", r"\bdyn\b", r"\bfn\(", r"\bFn(Once|Mut)?\("]


def hits(patterns):
    found = []
    for path in SOURCES:
        for number, line in enumerate(path.read_text().splitlines(), 1):
            code = line.split("//")[0]
            if any(re.search(p, code) for p in patterns):
                found.append(f"{path.relative_to(ROOT)}:{number}: {line.strip()}")
    return found


def shape(name):
    """A function's name without the words that tell a twin from the other."""
    words = re.split(r"_", name)
    twins = "inv aes xtea whitened short wide encrypt decrypt encipher decipher seal unseal first second third two three nine eleven thirteen fourteen".split()
    return "_".join("*" if w in twins else w for w in words)


def twins():
    """Functions of one file, or of two crates of one layer, whose names differ in such a word alone; types with the same fields."""
    groups = collections.defaultdict(list)
    types = collections.defaultdict(list)
    for path in SOURCES:
        text = path.read_text()
        for m in re.finditer(r"^\s*(?:pub |pub\(crate\) )?(?:extern \"C\" )?fn (\w+)", text, re.M):
            if "*" in shape(m[1]):
                groups[shape(m[1])].append(f"{path.relative_to(ROOT)}: {m[1]}")
        for m in re.finditer(r"struct (\w+)(?:<[^>]*>)? \{\n((?:.*\n)*?)\}", text):
            body = re.sub(r"\s|//.*", "", m[2])
            types[body].append(f"{path.relative_to(ROOT)}: {m[1]}")
    return [f"{s}: {', '.join(v)}" for s, v in groups.items() if len(v) > 1] + [
        f"struct: {', '.join(v)}" for v in types.values() if len(v) > 1
    ]


def facts():
    """Premises that stand in three or more contracts, and parameters that stand side by side in three or more functions."""
    premises = collections.Counter()
    pairs = collections.Counter()
    for path in SOURCES:
        text = path.read_text()
        for m in re.finditer(r"requires (?:\w+ )?\{ (.*) \}", text):
            fact = re.sub(r"\b(C\.Block|K)\.ops", "ops", m[1])
            fact = re.sub(r"length \S+\.(now|old)", "length _", fact)
            fact = re.sub(r"\bm \*|terms\.now\.m \*", "m *", fact)
            for part in re.findall(r"[^×]+", fact):
                premises[part.strip(" ()")] += 1
        for m in re.finditer(r"fn \w+(?:<[^(]*>)?\(([^)]*)\)", text):
            names = re.findall(r"(\w+):", re.sub(r"::", "", m[1]))
            for i, a in enumerate(names):
                for b in names[i + 1 :]:
                    pairs[f"{a}, {b}"] += 1
    return [f"fact, {n} times: {f}" for f, n in premises.most_common() if n > 2] + [
        f"parameters, {n} times: {p}" for p, n in pairs.most_common() if n > 2
    ]


def answers():
    out = []
    for crate in sorted((ROOT / "crates").iterdir()):
        files = [p for p in crate.glob("proofs/**/*.antt")]
        own = [p for p in files if p.name == "Answers.antt"]
        lines = sum(len(p.read_text().splitlines()) for p in files)
        if files:
            out.append(f"{crate.name}: {len(own)} files of answers, {lines} lines of proofs")
    return out


POINTS = {
    "1": ("numbers, flags, wrapped again", lambda: hits(NUMBERS)),
    "2": ("twins", twins),
    "3": ("loops that count", lambda: hits(LOOPS)),
    "4": ("by hand", lambda: hits(BY_HAND)),
    "5": ("facts and parameters that are repeated", facts),
    "6": ("buffers with a length beside", lambda: hits(BUFFERS)),
    "7": ("steps as values", lambda: hits(STEPS)),
    "8": ("proofs", answers),
}


def main():
    if len(sys.argv) > 1:
        print("\n".join(POINTS[sys.argv[1]][1]()))
        return
    for point, (what, count) in POINTS.items():
        print(f"{point} {what}: {len(count())}")


if __name__ == "__main__":
    main()
