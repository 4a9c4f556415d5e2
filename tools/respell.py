#!/usr/bin/env python3
"""Spells the repository's own definitions and lemmas in snake case, after port.py. Run once, at the top.

Functions of src/, exported names, strings, inputs and outputs keep their names. A dash stays where it joins two names,
as in length-added. Where names would fall together nothing is written; --list says which, --table prints all names.
"""

import glob
import os
import re
import sys

TOKEN = re.compile(r"[^\s(){}\[\].;,@\"«»`:]+")
DECL = re.compile(r"(?m)^ *(?:(?:pub|abbrev|unfoldable|mutual) )*([^\s(){}.;,@\"«»:`]+)(?: \{[^{}\n]*\})* :")
USE = re.compile(r"\buse ([^\s;{]+?)\.?(\{[^}]*\})")
# By hand: where the rule gives no good word, or one that stands already.
BY_HAND = {
    "casesAtoL": "cases_a_to_l",
    "rBy": "r_by",
    "at_front": "at_front_lem",
    "parts_from": "parts_from_lem",
}


def files():
    for top, dirs, names in os.walk("crates"):
        dirs[:] = sorted(d for d in dirs if d != "out")
        for n in sorted(names):
            if n.endswith((".antt", ".rt", ".edit")):
                yield os.path.join(top, n)


def snake(word):
    return re.sub(r"(?<=[a-z0-9])[A-Z]+", lambda m: "_" + m[0].lower(), word)


def respelled(name, known):
    if name in BY_HAND:
        return BY_HAND[name]
    if name[0].isupper() or "◌" in name or not name[0].isalpha():
        return name
    parts = [snake(p) for p in name.split("-")]
    if len(parts) == 1:
        return parts[0]
    # The fewest known names that make the whole keep their dash.
    best = {0: []}
    for end in range(1, len(parts) + 1):
        found = [
            best[at] + ["_".join(parts[at:end])]
            for at in range(end)
            if at in best and "_".join(parts[at:end]) in known
        ]
        if found:
            best[end] = min(found, key=len)
    whole = best.get(len(parts))
    return "-".join(whole) if whole and len(whole) > 1 else "_".join(parts)


def main():
    texts = {f: open(f, encoding="utf-8").read() for f in files()}
    declared, imported = {}, set()
    foreign = {}
    for f, t in texts.items():
        if f.endswith(".edit"):
            continue
        away = set()
        for path, names in USE.findall(t):
            crate = re.match(r"Rattle\.(\w+)", path)
            own = crate and os.path.isdir("crates/" + crate[1])
            words = [w for w in TOKEN.findall(names.strip("{}")) if w != "as"]
            if not own:
                away.update(words)
        foreign[f] = away
        imported |= away
        if f.endswith(".antt") and not f.endswith("/Proof.antt"):
            for n in DECL.findall(re.sub(r"(?m)--.*$", "", t)):
                declared.setdefault(n, set()).add(f)
    words = {n for n in declared if "-" not in n and n[0].islower()}
    known = {snake(w) for w in words} | {w for w in imported if "-" not in w and re.fullmatch(r"\w+", w)}
    known |= {"le", "lt", "sub", "mul", "mod", "div", "min", "max", "any", "all", "zero", "suc", "map"} & imported
    table = {}
    for n in declared:
        new = respelled(n, known)
        if new != n:
            table[n] = new
    # A lemma or a field that would have a definition's name gets _lem.
    bad = []
    by_new = {}
    for old, new in table.items():
        by_new.setdefault(new, []).append(old)
    for new, olds in list(by_new.items()):
        lemmas = [o for o in olds if "-" in o]
        if lemmas and (len(olds) > 1 or new in declared):
            for o in lemmas:
                table[o] = respelled(o, known) + "_lem"
                by_new[table[o]] = [o]
            by_new[new] = [o for o in olds if "-" not in o]
    tokens = {f: set(TOKEN.findall(t)) for f, t in texts.items()}
    for new, olds in sorted(by_new.items()):
        if len(olds) > 1:
            bad.append(f"two: {olds} -> {new}")
        for f, ts in tokens.items():
            if f.endswith((".edit", "/Proof.antt")):
                continue
            for old in olds:
                if old not in ts or new not in ts or old in foreign[f] or new in BY_HAND:
                    continue
                if f.endswith(".antt"):
                    bad.append(f"meets: {f}: {old} -> {new}")
    if bad and "--list" in sys.argv:
        print("\n".join(bad))
    if "--table" in sys.argv:
        for old in sorted(table):
            print(old, table[old])
    if bad:
        print(len(bad), "names fall together")
        return 1
    if "--table" in sys.argv:
        return 0
    changed = 0
    for f, t in texts.items():
        here = {o: n for o, n in table.items() if o not in foreign.get(f, ())}
        turn = lambda m: here.get(m[0], m[0])
        if f.endswith(".rt"):
            # no string: a name in one is output
            pieces = re.split(r'("(?:\\.|[^"\\])*")', t)
            new = "".join(p if k % 2 else TOKEN.sub(turn, p) for k, p in enumerate(pieces))
        else:
            new = TOKEN.sub(turn, t)
        if new != t:
            changed += 1
            open(f, "w", encoding="utf-8").write(new)
    print(len(table), "names,", changed, "files")
    return 0


sys.exit(main())
