#!/usr/bin/env python3
"""Brings the repository's own definitions and lemmas to today's spelling: words in snake case, a dash only between two names.

usage: tools/respell.py [--look]      at the top, once, right after port.py; --look prints the names and what falls together, and writes nothing

A name is respelled where it is declared in a file of specs/ or proofs/ (not in a function's own folder of proofs/, whose names are made by
Rattle) and wherever it is cited: in clauses, definitions, proofs and comments of crates/. Types keep their capital; strings and
the names of functions, fields and parameters of src/ stay.
"""

import os
import re
import sys

TOKEN = re.compile(r"[^\s(){}\[\];,.\"`:]+")
DECLARED = re.compile(r"^\s*(?:(?:pub|abbrev|unfoldable|unfolding|record|data|mutual|ruleset)\s+)*([^\s(){};,.:]+)\s*(?::(?=\s)|=)")
DECLARED_MORE = re.compile(r"^\s*(?:pub\s+)?(?:record|data)\s+([^\s(){};,.:]+)")
WORDS = {"use", "let", "mod", "module", "where", "in", "elim", "pub", "record", "λ", "_", "--"}
# The words of lists and numbers that lemmas are named after.
LIBRARY = """length take drop append map filter replicate set sets sum reverse insert get_or slice zip concat cons fold all any min max add mul sub
 div mod pow le lt eq suc zero tabulate""".split()
# Two names that would fall together, or that a parameter or a word of the library would hide.
OWN = {"image-in": "image_in_lem", "number-faults": "number_faults_lem", "carried_from": "carried_from_lem"}
# Lemmas in today's spelling already, with the name that a definition gets.
ALREADY = {"stands_at", "carried_from", "edge_for"}


def texts(top):
    for folder, dirs, files in os.walk(os.path.join(top, "crates")):
        dirs[:] = sorted(d for d in dirs if d not in ("out", "target"))
        for f in sorted(files):
            if f.endswith((".rt", ".antt")):
                yield os.path.join(folder, f)


def kind(path):
    part = path.split(os.sep)
    part = part[part.index("crates") + 2:]
    if part[0] == "proofs" and len(part) > 2:
        return "function"
    return part[0]


def snake(word):
    return re.sub(r"(?<=[a-z0-9])([A-Z])(?=[a-z0-9]|$)", lambda m: "_" + m.group(1).lower(), word)


def read(path):
    with open(path, encoding="utf-8") as f:
        return f.read()


def respelled(name, names):
    """The name as it is written today."""
    if name in OWN:
        return OWN[name]
    if not re.match(r"^[a-z][A-Za-z0-9_'?-]*$", name):
        return name
    parts = [snake(p) if p[:1].islower() else p for p in name.split("-")]
    if len(parts) == 1:
        return parts[0]
    out = parts[0]
    for i in range(1, len(parts)):
        left = any("_".join(parts[j:i]) in names for j in range(i))
        right = any("_".join(parts[i:j]) in names for j in range(i + 1, len(parts) + 1))
        out += ("-" if left and right else "_") + parts[i]
    return out


def main():
    look = "--look" in sys.argv
    top = os.path.abspath(".")
    files = {p: read(p) for p in texts(top)}
    declared, words = {}, set(LIBRARY)
    imported = set()
    for p, t in files.items():
        for m in re.finditer(r"(?m)^(?:pub |ghost )?use ([^\n]*)", t):
            line = m.group(1)
            if not line.startswith("Rattle.") or line.startswith("Rattle.std."):
                imported |= set(TOKEN.findall(line.partition("{")[2]))
        if not p.endswith(".antt") or kind(p) == "function":
            continue
        for line in t.splitlines():
            if line.lstrip().startswith(("--", "use ", "unfolding ", "mod ", "pub mod ", "let ")):
                continue
            for m in (DECLARED.match(line), DECLARED_MORE.match(line)):
                if m and m.group(1) not in WORDS:
                    declared.setdefault(m.group(1), p)
                    top_level = re.match(r"^(?:abbrev |unfoldable )?(?:abbrev |unfoldable )?pub [a-z]", line)
                    if kind(p) == "specs" and top_level:
                        words.add(snake(m.group(1).replace("-", "_")))
    new = {}
    for n in declared:
        to = respelled(n, words)
        if to != n:
            if n in imported:
                print(f"left, since a library has the name: {n} ({os.path.relpath(declared[n], top)})")
                continue
            new[n] = to
    # A definition keeps the name before a lemma, which gets "_lem".
    for n in sorted(set(new) | {m for m in ALREADY if m in declared}):
        to = new.get(n, n)
        rival = [m for m in declared if m != n and new.get(m, m) == to]
        if rival and kind(declared[n]) == "proofs" and (n in new or n in ALREADY) and any(kind(declared[m]) == "specs" for m in rival):
            new[n] = to + "_lem"
    back = {}
    for n, to in new.items():
        back.setdefault(to, []).append(n)
    if look:
        for n in sorted(new):
            print(f"{n} > {new[n]}")
    for to, ns in sorted(back.items()):
        if len(ns) > 1 or to in imported or to in declared:
            print(f"falls together: {to}: {', '.join(ns)}{' and the library' if to in imported else ''}{' and declared already' if to in declared else ''}")
    count = 0
    for p, t in files.items():
        before = set(TOKEN.findall(t))
        # A name in today's spelling is also a function's: it is turned only where the lemma is declared or imported.
        cites = p.endswith(".antt") and kind(p) == "proofs"
        kept = set() if cites else {n for n in new if n in ALREADY}
        kept |= {n for n in new if n in ALREADY and not re.search(r"(?m)^(?:pub )?" + n + r" :|^use Rattle[^\n]*proofs[^\n]*[{ ]" + n + "[,}]", t)}
        hit = sorted({n for n in new if n in before and n not in kept})
        for n in hit:
            others = [m for m in hit if m != n and new[m] == new[n]]
            if new[n] in before or others:
                print(f"look: {os.path.relpath(p, top)}: {n} > {new[n]}, beside {', '.join(others) or new[n]}")

        def swap(m):
            n = m.group(0)
            if n not in new or n in kept:
                return n
            behind = t[max(0, m.start() - 6):m.start()]
            if behind.endswith(("tie.", "goal.")):
                return n
            return new[n]

        if look:
            for line in t.splitlines():
                said = line.partition("--" if p.endswith(".antt") else "//")[2]
                for n in TOKEN.findall(said):
                    if n in new:
                        print(f"said: {n} > {new[n]}: {said.strip()[:100]}")
            if p.endswith(".rt"):
                for m in re.finditer(r'"[^"\n]*"', t):
                    for n in TOKEN.findall(m.group(0)):
                        if n in new:
                            print(f"string: {n}: {m.group(0)}")
        out = TOKEN.sub(swap, t)
        if out != t:
            count += 1
            if not look:
                with open(p, "w", encoding="utf-8") as f:
                    f.write(out)
    print(f"respelled: {len(new)} names in {count} files")


if __name__ == "__main__":
    main()
