#!/usr/bin/env python3
"""Brings the repository's own definitions and lemmas to today's spelling: words in snake case, where types and modules are in camel case.

    respell.py          writes
    respell.py --look   only says which names change, and where a new name stood already

Run once, at the top, right after the kit's own script. A part between dashes is a name of its own and is respelled alone; a part that begins
with a capital is a type and stays. Functions, strings, inputs and outputs are not touched: no name of those is in lower camel case.
"""
import pathlib
import re
import sys

TOKEN = re.compile(r"[A-Za-z_][A-Za-z0-9_'₀-₉]*(?:-[A-Za-z0-9_'₀-₉]+)*")
CAMEL = re.compile(r"^[a-z][a-z0-9]*[A-Z]")
DECLARED = re.compile(
    r"^(?:abbrev |unfoldable )?(?:pub )?(?:record |data )?([A-Za-z_][A-Za-z0-9_'₀-₉-]*)(?: :|$| \()|^  (?:pub )?([a-z_][A-Za-z0-9_'₀-₉-]*) :", re.M)
ALIAS = re.compile(r"\bas ([a-z][A-Za-z0-9_'₀-₉-]*)")
# what the kit's script left of its own old names inside longer ones
PARTS = {"getD": "get_or"}
# A lemma that the kit's script gave the name of a function stands beside the definition that takes that name now: it keeps its dash.
APART = {
    "crates/reads/proofs/Seeing.antt": {"row_seen": "row-seen"},
    "crates/reads/proofs/read_strip/Proof.antt": {"row_seen": "row-seen"},
    "crates/strip/proofs/Requests.antt": {"row_read": "row-read"},
}


def snake(part):
    if part in PARTS:
        return PARTS[part]
    if not CAMEL.match(part):
        return part
    return re.sub(r"(?<=[a-z0-9])([A-Z])", r"_\1", part).lower()


def files():
    for pattern in ("crates/*/src/**/*.rt", "crates/*/specs/**/*.antt", "crates/*/proofs/**/*.antt", "crates/*/must-fail/*.edit"):
        yield from sorted(pathlib.Path(".").glob(pattern))


def main():
    texts = {p: p.read_text(encoding="utf-8") for p in files()}
    declared = set()
    for p, t in texts.items():
        if p.suffix == ".antt":
            for a, b in DECLARED.findall(t):
                declared.add(a or b)
        declared.update(ALIAS.findall(t))
    new = {}
    for name in sorted(declared):
        to = "-".join(snake(x) for x in name.split("-"))
        if to != name:
            new[name] = to
    used = {}
    for p, t in texts.items():
        for tok in set(TOKEN.findall(t)):
            used.setdefault(tok, set()).add(p)
    if "--look" in sys.argv:
        for name, to in new.items():
            both = sorted(str(p) for p in used.get(to, set()) & used[name])
            also = "" if not both else "   ALSO in " + " ".join(both)
            if to in declared:
                also += "   DECLARED ALREADY"
            print(f"{name} -> {to}{also}")
        twice = {}
        for name, to in new.items():
            twice.setdefault(to, []).append(name)
        for to, names in twice.items():
            if len(names) > 1:
                print("TWICE", to, names)
        return
    for p, t in texts.items():
        here = new | APART.get(p.as_posix(), {})
        now = TOKEN.sub(lambda m: here.get(m.group(0), m.group(0)), t)
        if now != t:
            p.write_text(now, encoding="utf-8")
    print(f"respelled {len(new)} names")


main()
