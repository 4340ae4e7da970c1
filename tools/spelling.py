#!/usr/bin/env python3
"""Brings the repository's own names to today's spelling, after the kit's port.py: run it once, at the top of the checkout.

usage: python3 tools/spelling.py [--say]      (--say only prints the new names)

- A definition, lemma, field, constructor or variable in camel case becomes snake case: fillFrom, fill_from. Types and modules keep upper camel case.
- A dash stays where it joins two names that are declared somewhere: length-append. A dash between plain words becomes '_': fill-before, fill_before.
- Where a name in camel case and one with a dash come to the same word, the one with the dash gets '_lem', or '_holds' where it is a field: act-on, act_on_lem.
- Code, strings, C names, inputs and outputs keep their names: only the names of specs/ and proofs/ are turned, in proofs, definitions and clauses.
HEAD holds the text from before port.py; the checkout holds what port.py made of it.
"""
import collections
import os
import re
import subprocess
import sys

WORD = r"[\w'ℤℕ≤<⊖-]"
CAMEL = re.compile(r"(?<![\w'])([a-z][a-z0-9]*(?:(?:[A-Z][a-z0-9]*)+|(?:[A-Z][a-z0-9]*)*[ℤℕ]))(?![\w'ℤℕ])")
TOP = re.compile(r"^(?:pub |unfoldable |abbrev )*(?:record |data |ruleset )?(\S+)")
INNER = re.compile(r"^ +(?:pub )?([^\s:()|=λ]+)(?: \{[^}]*\})? :")
SKIP = {"use", "mod", "unfolding", "infixl", "infixr", "infix", "open", "--", "mutual"}
# names of the library in camel case, and names that would fall together
KEEP = set()
GIVEN = {}


def files(end):
    for folder, dirs, names in os.walk("crates"):
        dirs[:] = sorted(d for d in dirs if d != "out")
        for f in sorted(names):
            if f.endswith(end):
                yield os.path.join(folder, f)


def read(p):
    with open(p, encoding="utf-8") as f:
        return f.read()


def made(p):
    return "/proofs/" in p and os.path.basename(p) in ("Proof.antt", "Invariants.antt", "Answers.antt")


def snake(w):
    w = re.sub(r"([A-Z]|(?<!_)[ℤℕ])", lambda m: "_" + m.group(1).lower() if m.group(1) not in "ℤℕ" else "_" + m.group(1), w)
    return w


def camel(t):
    return CAMEL.sub(lambda m: m.group(1) if m.group(1) in KEEP else GIVEN.get(m.group(1), snake(m.group(1))), t)


def declared_in(t, goal):
    """The names that a text declares at the top, and those of fields, constructors and local definitions; of a proof of a function, its goals."""
    top, inner, goals = collections.Counter(), collections.Counter(), []
    for line in t.split("\n"):
        if line.startswith("--") or not line.strip():
            continue
        m = TOP.match(line)
        if m and m.group(1) not in SKIP and (re.match(r"(?: \{ℓ[^}]*\})? :| =|(?: \([^)]*\)| \{[^}]*\})* (?::|where)", line[m.end():])):
            if goal:
                goals.append(m.group(1))
            else:
                top[m.group(1)] += 1
            continue
        m = INNER.match(line)
        if m and not goal:
            inner[m.group(1)] += 1
    return top, inner, goals


def dashes(top, inner, goals):
    """The names with a dash that are turned, and what they become."""
    plain = {camel(n) for n in top if "-" not in n} | {"length", "get_or", "set", "take", "drop"}
    turned = {}
    for n in sorted(set(top) | set(inner)):
        if "-" not in n.strip("-") or n in goals or not re.fullmatch(r"[\w'ℤℕ-]+", n):
            continue
        parts = camel(n).split("-")
        if n in top and len(parts) == 2 and all(p in plain for p in parts):
            continue
        turned[camel(n)] = "_".join(parts)
    return turned


def base(p):
    r = subprocess.run(["git", "show", "HEAD:" + p], capture_output=True, text=True, encoding="utf-8")
    return r.stdout if r.returncode == 0 else ""


def flat(n):
    return camel(n).replace("-", "_")


def clashes():
    """The words that two or more names come to, and whether one of them with a dash is declared at the top of a file."""
    groups, tops = collections.defaultdict(set), set()
    for p in files(".antt"):
        if os.path.basename(p) == "Lib.antt" or made(p):
            continue
        top, inner, _ = declared_in(base(p), False)
        for n in list(top) + list(inner):
            groups[flat(n)].add(n)
        tops |= {flat(n) for n in top if "-" in n}
    return {w: ("_lem" if w in tops or w + "_holds" in groups else "_holds") for w, ns in groups.items() if len(ns) > 1}


def apart(p, t, clash):
    """The text with the names with a dash set apart from those in camel case, by the order in which they stand in the text of HEAD."""
    token = re.compile(r"(?<![\w'ℤℕ≤<⊖-])[\w'ℤℕ-]+(?![\w'ℤℕ-])")
    before = collections.defaultdict(list)
    for m in token.finditer(base(p)):
        if flat(m.group(0)) in clash:
            before[flat(m.group(0))].append(m.group(0))
    now = collections.Counter(flat(m.group(0)) for m in token.finditer(t))
    seen = collections.Counter()

    def one(m):
        n, w = m.group(0), flat(m.group(0))
        if w not in clash:
            return n
        k = seen[w]
        seen[w] += 1
        if now[w] != len(before[w]):
            print(f"look: {p}: {w}: {len(before[w])} times before, {now[w]} now")
            dashed = "-" in n
        else:
            dashed = "-" in before[w][k]
        return w + clash[w] if dashed else (n if "-" not in n else w)

    return token.sub(one, t)


def main(argv):
    clash = clashes()
    texts = {p: read(p) for end in (".antt", ".rt") for p in files(end)}
    split = {p: (apart(p, t, clash) if p.endswith(".antt") and os.path.basename(p) != "Lib.antt" else t) for p, t in texts.items()}
    top, inner, goals = collections.Counter(), collections.Counter(), set()
    for p, t in split.items():
        if p.endswith(".antt") and os.path.basename(p) != "Lib.antt":
            a, b, c = declared_in(t, made(p))
            top.update(a)
            inner.update(b)
            goals |= set(c)
    turned = dashes(top, inner, goals)
    names = collections.defaultdict(set)
    for n in list(top) + list(inner):
        names[turned.get(camel(n), camel(n))].add(n)
    for w, ns in sorted(names.items()):
        if len(ns) > 1:
            print(f"falls together: {w}: {sorted(ns)}")
    token = re.compile(r"(?<![\w'ℤℕ≤<⊖-])(" + "|".join(sorted(map(re.escape, turned), key=len, reverse=True)) + r")(?![\w'ℤℕ-])")

    def turn(t):
        return token.sub(lambda m: turned[m.group(1)], camel(t))

    if "--say" in argv:
        return 0
    for p, t in split.items():
        new = t if os.path.basename(p) == "Lib.antt" else turn(t) if p.endswith(".antt") else clauses(t, turn)
        if new != texts[p]:
            with open(p, "w", encoding="utf-8") as f:
                f.write(new)
    return 0


def clauses(t, turn):
    """The text with the clauses and ghost lines turned, and the code left as it is."""
    out, depth, inside = [], 0, False
    for line in t.split("\n"):
        if inside or re.match(r"\s*(pub )?(requires|ensures|ghost|invariant|decreases)\b", line):
            inside = True
            code = re.sub(r"'[{}]'", "", line)
            depth += code.count("{") - code.count("}")
            out.append(turn(line))
            if depth <= 0:
                inside, depth = False, 0
        else:
            out.append(line)
    return "\n".join(out)


if __name__ == "__main__":
    raise SystemExit(main(sys.argv[1:]))
