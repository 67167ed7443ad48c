#!/usr/bin/env python3
"""Respells the repository's own definitions and lemmas: headNo and asc-tail become head_no and asc_tail.

usage: tools/spell.py          at the top, once, right after the toolchain's port.py

Types, modules and constructors keep their capitals; what the library defines keeps its name. Names are taken from specs/ and from
the lemma files in proofs/; they are turned in .antt, .rt and .edit files. It stops before it writes where two names would fall together.
"""
import collections, glob, re, sys

WORD = r"[^\s(){}\[\]:,;.λ∀=⟨⟩·`\"]+"
DEFINED = re.compile(r"^\s*(?:(?:abbrev|unfoldable|opaque|pub)\s+)*(" + WORD + r")(?:\s+\{[^}]*\})?\s*:(?!=)")
NAMED = re.compile(r"\b(?:ruleset)\s+(" + WORD + r")")
TOKEN = re.compile(r"[^\s(){}\[\]:,;.λ∀=⟨⟩·`\"×⊎→+*≡≤<>&|!/%@#∷∙]+")


def snake(name):
    s = re.sub(r"(?<=[a-z0-9])([A-Z])", r"_\1", name)
    return s.replace("-", "_").lower()


def lemma_files():
    for f in glob.glob("crates/*/specs/**/*.antt", recursive=True) + glob.glob("crates/*/proofs/**/*.antt", recursive=True):
        if not re.search(r"/proofs/.*/?(Proof|Invariants|Answers)\.antt$", f):
            yield f


def own():
    """Names that want another spelling, with the files that define them."""
    found = collections.defaultdict(set)
    for f in lemma_files():
        for line in open(f, encoding="utf-8"):
            if line.lstrip().startswith("--"):
                continue
            names = [m.group(1) for m in NAMED.finditer(line)]
            m = DEFINED.match(line)
            if m:
                names.append(m.group(1))
            for n in names:
                if n[0].isupper() or not n[0].isalpha():
                    continue
                if "-" in n or re.search("[a-z0-9][A-Z]", n):
                    found[n].add(f)
    return found


def library():
    """Names that files import from elsewhere than this repository's crates."""
    crates = {c.split("/")[1] for c in glob.glob("crates/*/")}
    names = set()
    for f in glob.glob("crates/*/**/*.antt", recursive=True) + glob.glob("crates/*/src/**/*.rt", recursive=True):
        for m in re.finditer(r"\buse\s+([\w.]+)\.\{([^}]*)\}", open(f, encoding="utf-8").read()):
            part = m.group(1).split(".")
            if part[0] == "Rattle" and len(part) > 1 and part[1] in crates:
                continue
            names |= {w.split(" as ")[0].strip() for w in m.group(2).split(",")}
    return names


def importing(name, text):
    """Whether a file defines a name or imports it by name."""
    if any(m and m.group(1) == name for m in map(DEFINED.match, text.split("\n"))):
        return True
    return any(name in [w.split(" as ")[0].strip() for w in m.group(2).split(",")] for m in re.finditer(r"\buse\s+([\w.]+)\.\{([^}]*)\}", text))


def main():
    names, foreign = own(), library()
    turn = {n: snake(n) for n in names if n not in foreign}
    defined = set()
    for f in lemma_files():
        for line in open(f, encoding="utf-8"):
            m = DEFINED.match(line)
            if m and not line.lstrip().startswith("--"):
                defined.add(m.group(1))
    # Where two names would fall together the definition keeps the plain one, and the lemma gets _law.
    older = {}
    words = collections.Counter(turn.values())
    for n, s in sorted(turn.items()):
        if "-" in n and (words[s] > 1 or s in defined or s in foreign):
            turn[n] = s + "_law"
        elif "-" not in n and s in defined:
            older[s] = s + "_law"
    words = collections.Counter(turn.values())
    bad = [s for s in words if words[s] > 1 or s in foreign or (s in defined and s not in older)]
    if bad:
        raise SystemExit("fall together: " + " ".join(sorted(bad)))
    n = 0
    for f in glob.glob("crates/*/**/*", recursive=True):
        if not f.endswith((".antt", ".rt", ".edit")) or "/out/" in f:
            continue
        text = open(f, encoding="utf-8").read()
        here = {o: s for o, s in older.items() if f.endswith(".antt") and importing(o, text)} | turn
        new = TOKEN.sub(lambda m: here.get(m.group(0), m.group(0)), text)
        if new != text:
            n += 1
            open(f, "w", encoding="utf-8").write(new)
    for o, s in sorted((older | {n: s for n, s in turn.items() if s.endswith("_law")}).items()):
        print(f"{o} -> {s}")
    print(f"{len(turn)} names turned in {n} files")


main()
