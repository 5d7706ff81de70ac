#!/usr/bin/env python3
"""Lists what the port changed by more than spelling: the contracts, definitions, statements and must-fail edits of LANDED beside today's.

usage: tools/beside.py LANDED SPELLED      at the top; the two are checkouts of the first two commits that docs/PORT.md names

LANDED is the last commit in the older Rattle, SPELLED the one in which port.py and tools/respell.py ran. The names are paired by their order in
each file of the two. LANDED's text is then read with today's names and forms (below, `tree` and `today`), and set beside the text of this folder,
token by token. Listed is each declaration of specs/, each statement of a lemma of proofs/, each signature and clause of src/ and each edit that is
not the same then, with both texts; at the end how many are the same. Comments, imports, layout and needless brackets don't count.
"""

import collections
import difflib
import importlib.util
import os
import re
import subprocess
import sys

sys.setrecursionlimit(100000)
# Names of the library that the port turned.
LIBRARY = {"RefT": "Bor", "getD": "get_or", "bitOr": "bit_or"}
# Names of SPELLED that were changed once more.
LATER = {
    "still_runs_lem": "still_running",
    "handed_back_lem": "hands_back",
    "entered_since_lem": "once_entered",
    "three_entries_lem": "counts_three",
    "refused_load_lem": "load_refusal",
    "good_store_lem": "good_stays",
    "serve_length_lem": "length_served",
}
PATHS = {"List·Memᴰ": "Memᴰ", "Option·map": "Option.map", "_≡_": "◌≡◌", "_∷_": "◌∷◌"}
FIELDS = {"ptr": "ref_ptr"}
NAME = r"([^\s(){};,.:=]+)"
DECLARED = re.compile(r"^(\s*)(?:(?:pub|abbrev|unfoldable|opaque)\s+)*" + NAME + r"\s*:(?=\s|$)")
NAMED = re.compile(r"^(\s*)(?:pub\s+)?(?:record|data)\s+([^\s(){};,.:]+)")
BLOCK = re.compile(r"^(\s*)(module)\b")
NOT_DECLARED = re.compile(r"\s*((pub\s+)?(use|mod)\b|unfolding\b|let\b)")
WORDS = {"let", "in", "where", "if", "then", "else", "elim", "as", "pub", "abbrev", "unfoldable", "data", "rw", "λ", "module", "use"}
CLOSING = {"(": ")", "{": "}", "[": "]"}
TOKEN = re.compile(r"\s+|\.[A-Za-z0-9_'′-]+|[(){}\[\];,`\"]|[^\s(){}\[\];,\"`.]+|\.+")


def read(path):
    with open(path, encoding="utf-8") as f:
        return f.read()


def files(top, part):
    for folder, dirs, names in sorted(os.walk(os.path.join(top, "crates"))):
        dirs[:] = sorted(d for d in dirs if d not in ("out", "target"))
        at = os.path.relpath(folder, os.path.join(top, "crates")).split(os.sep)
        # (a function's own folder of proofs/ has names that Rattle makes)
        if at[1:] == [part]:
            yield from (os.path.join(*at, f) for f in sorted(names) if f.endswith((".antt", ".edit")))


def entries(text, whole):
    """Each declaration with its text: its type alone, or with all that belongs to it. A record's and a module's head stands by itself, and so do their members."""
    lines, out, i = re.sub(r"(?m)(^|(?<=\s))--.*$", "", text).split("\n"), [], 0
    while i < len(lines):
        m = None if NOT_DECLARED.match(lines[i]) else DECLARED.match(lines[i]) or NAMED.match(lines[i]) or BLOCK.match(lines[i])
        if not m:
            i += 1
            continue
        j, deep = i + 1, len(m[1])
        inside = lambda l: not l.strip() or len(l) - len(l.lstrip()) > deep  # noqa: E731
        starts = lambda l: bool(NAMED.match(l) or BLOCK.match(l) or DECLARED.match(l)) and not NOT_DECLARED.match(l)  # noqa: E731
        if m.re is DECLARED:
            while j < len(lines) and (inside(lines[j]) or (whole and len(lines[j]) - len(lines[j].lstrip()) == deep and not starts(lines[j]) and not NOT_DECLARED.match(lines[j]))):
                j += 1
        else:
            while j < len(lines) and inside(lines[j]) and not (lines[j].strip() and starts(lines[j])):
                j += 1
        out.append((m[2], " ".join(" ".join(lines[i:j]).split())))
        i = j
    return out


def renamed(old, new):
    """LANDED's names, each with the one that it got."""
    out = {}
    for part in ("specs", "proofs"):
        for f in files(old, part):
            a, b = ([n for n, _ in entries(read(os.path.join(top, "crates", f)), False)] for top in (old, new))
            if len(a) != len(b):
                sys.exit(f"{f}: the names of the two do not pair")
            for x, y in zip(a, b):
                if out.setdefault(x, y) != y:
                    sys.exit(f"{f}: {x} is {out[x]} and {y}")
    return {x: LATER.get(y, y) for x, y in out.items()}


def tree(text, names):
    """The text as nested groups; of LANDED's (with its names) a projection `f x .p` is the group `(f x).p`. A group of one is what is in it."""
    tokens, space = [], True
    for old, new in PATHS.items() if names else ():
        text = text.replace(old, new)
    # (a name that an import gives by 'as' is paired with none: it goes by its spelling)
    snake = lambda w: re.sub(r"(?<=[a-z0-9])[A-Z](?=[a-z0-9]|$)", lambda m: "_" + m[0].lower(), w) if w[:1].islower() else w  # noqa: E731
    today = lambda w: (names.get(w) or LIBRARY.get(w) or snake(w)).replace("′", "'") if names else snake(w)  # noqa: E731
    for m in TOKEN.finditer(text):
        w = m[0]
        if not w.isspace():
            is_field = bool(re.match(r"\.\w", w))
            tokens.append((is_field, (FIELDS.get(w[1:]) if names else None) or today(w[1:]) if is_field else today(w), space))
        space = w.isspace()
    is_atom = lambda x: isinstance(x, tuple) or x in ("[]", "⊤", "⊥", "_") or (x not in WORDS and bool(re.search(r"\w", x)))  # noqa: E731
    at = 0

    def group(end):
        nonlocal at
        out = []
        while at < len(tokens):
            is_field, w, space = tokens[at]
            at += 1
            if is_field:
                i = len(out)
                while names and space and i > 0 and is_atom(out[i - 1]):
                    i -= 1
                i = len(out) - 1 if not space else i
                if i < 0 or i == len(out):
                    out.append("." + w)
                else:
                    base = tuple(out[i:])
                    out[i:] = [(".", base[0][1] if len(base) == 1 and base[0][0] == "(" else base, w)]
            elif w in CLOSING:
                inner = group(CLOSING[w])
                out.append(inner[0] if w == "(" and len(inner) == 1 else (w, tuple(inner)))
            elif w == end:
                return out
            else:
                out.append(w)
        return out

    out = tuple(group(None))
    return out[0][1] if len(out) == 1 and out[0][0] == "(" else out


def today(clause, kind, sign):
    """A clause of LANDED in today's form."""
    m = re.match(r"λ (\S+)\. (.*)$", clause) if kind == "ensures" else None
    if m:
        clause = re.sub(r"(?<![\w.])" + re.escape(m[1]) + r"(?![\w'′])", "result", m[2])
    clause = re.sub(r"[⌜⌝]", " ", clause).strip()
    written = set(re.findall(r"(\w+): &(?:'\w+ )?mut", sign))
    at = lambda name, end: name + (f".{end}" if name in written else ".now")  # noqa: E731
    clause = re.sub(r"now \((\w+) \.(exit|entry)\)", lambda m: at(m[1], "new" if m[2] == "exit" else "old"), clause)
    clause = re.sub(r"\bnow (\w+)", lambda m: at(m[1], "old" if kind == "requires" else "now"), clause)
    return clause


def show(kind, what, old, new):
    print(f"{kind}: {what}")
    for sign, texts in (("-", old), ("+", new)):
        for text in texts:
            print(f"    {sign} {text}")


def antt(part, whole, tops, names):
    """Declarations by file and name. One that stands in no entry of its name today is listed."""
    old, count, same = tops[0], 0, 0
    for f in files(old, part):
        here = os.path.join(tops[-1], "crates", f)
        found, olds = collections.defaultdict(list), entries(read(os.path.join(old, "crates", f)), whole)
        if not os.path.exists(here):
            print(f"{part}: {f} is gone, with {len(olds)}")
            count += len(olds)
            continue
        for n, t in entries(read(here), whole):
            found[n].append(t)
        for n, t in olds:
            count += 1
            beside = found.get(names.get(n, n), [])
            if any(tree(t, names) == tree(u, None) for u in beside):
                same += 1
            else:
                # (of some with one name the nearest)
                near = sorted(beside, key=lambda u: -difflib.SequenceMatcher(None, t, u, False).ratio())[:1]
                show(part, f"{f} {names.get(n, n)}", [t], near or ["gone"])
    print(f"{part}: {count} {'declarations' if whole else 'statements'}, {same} the same")


def contracts(tops, names):
    kit = os.path.dirname(subprocess.run(["rt", "doc"], capture_output=True, text=True, check=True).stdout.strip())
    spec = importlib.util.spec_from_file_location("contracts", os.path.join(kit, "port", "contracts.py"))
    lister = importlib.util.module_from_spec(spec)
    spec.loader.exec_module(lister)
    old, new = (lister.read(top)[1] for top in (tops[0], tops[-1]))
    count = same = 0
    for key in sorted(old):
        name = " ".join(p for p in key if p)
        for x, y in zip(old[key], new.get(key, [None] * len(old[key]))):
            if y is None:
                show("contract", name, [x["sign"]], ["gone"])
                continue
            if x["sign"] != y["sign"]:
                show("signature", name, [x["sign"]], [y["sign"]])
            for kind in ("requires", "ensures"):
                a, b = [c[2] for c in x[kind]], [c[2] for c in y[kind]]
                count += len(a)
                if [tree(today(c, kind, x["sign"]), names) for c in a] == [tree(c, None) for c in b]:
                    same += len(a)
                else:
                    show(kind, name, a, b)
    print(f"src: {count} clauses, {same} the same")


def edits(tops, names):
    count = same = 0
    for f in files(tops[0], "must-fail"):
        here, texts = os.path.join(tops[-1], "crates", f), []
        for top in (tops[0], tops[-1]):
            path = os.path.join(top, "crates", f)
            texts.append([l for l in read(path).split("\n") if l.strip()] if os.path.exists(path) else [])
        count += 1
        plain = lambda l: re.sub(r"^(\w+: ?)\s*", r"\1", re.sub(r"ensures \{ (.*) \}", lambda m: f"ensures {{ {today(m[1], 'ensures', '')} }}", l))  # noqa: E731
        if [tree(plain(l), names) for l in texts[0]] == [tree(plain(l), None) for l in texts[1]]:
            same += 1
        else:
            show("edit", f, texts[0], texts[1] if os.path.exists(here) else ["gone"])
    print(f"must-fail: {count} edits, {same} the same")


def main():
    if len(sys.argv) != 3:
        sys.exit(__doc__)
    tops = [*sys.argv[1:], "."]
    names = renamed(*tops[:2])
    antt("specs", True, tops, names)
    antt("proofs", False, tops, names)
    contracts(tops, names)
    edits(tops, names)


if __name__ == "__main__":
    main()
