#!/usr/bin/env python3
"""Brings the names of definitions and lemmas of this repository to today's spelling.

usage: tools/respell.py        at the top of the repository, once, right after the kit's port.py

Words are in snake case, types and facts in camel case: `send-answer` becomes `send_answer`, `Sound-bank` `SoundBank`.
A name counts as the repository's own where specs/ or a lemma file of proofs/ binds it; names that the prover makes (goals, steps) stay.
Turned are .antt, .rt and .edit files below crates/, and what stands between backticks in README.md and docs/.
Prints each new name that something else already has: these fall together and are looked at by hand.
"""
import glob
import re
import sys

WORD = r"[^\s(){}\[\],;.:«»`\"|]+"
BIND = re.compile(r"^[ \t]*(?:abbrev )?(?:unfoldable )?(?:pub )?(?:record |data )?(" + WORD + r")((?: \([^\n]*?\)| \{[^\n]*?\})*) : ([^\n]*(?:\n[ \t]+(?:→|×)[^\n]*)*)", re.M)
LET = re.compile(r"\blet (" + WORD + r") [:=]")
# bound in a form that BIND does not see
MORE = {"id-of", "roomy-or", "late-link-gets-the-last-entries", "shut-before"}


def files(*patterns):
    return sorted(p for pattern in patterns for p in glob.glob(pattern, recursive=True) if "/out/" not in p)


def lemma_files():
    return [p for p in files("crates/*/specs/*.antt", "crates/*/proofs/*.antt")]


def text(path):
    with open(path, encoding="utf-8") as f:
        return f.read()


def library_names():
    names = set()
    for p in files("crates/**/*.antt", "crates/**/*.rt"):
        for line in re.findall(r"use Rattle\.std\.[^{;\n]*\{([^}]*)\}", text(p)):
            names.update(w.split(" as ")[0].strip() for w in line.split(","))
    return names


def camel(name):
    return "".join(part[:1].upper() + part[1:] for part in name.split("-"))


def is_fact(name, body):
    return name[0].isupper() or re.search(r"Type 0(?: where)?\s*$", body) is not None


def renamed():
    found = {}
    for p in lemma_files():
        t = text(p)
        for m in BIND.finditer(t):
            name, body = m.group(1), m.group(3)
            if "-" in name.strip("-"):
                found[name] = found.get(name, False) or is_fact(name, body)
        for m in LET.finditer(t):
            if "-" in m.group(1):
                found.setdefault(m.group(1), False)
    found.update((n, False) for n in MORE)
    return {n: camel(n) if fact else n.replace("-", "_") for n, fact in found.items()}


def main():
    library = library_names()
    names = renamed()
    shared = sorted(set(names) & library)
    for n in shared:
        print(f"stays, the library has it: {n}")
    names = {old: new for old, new in names.items() if old not in library}
    tokens = set()
    paths = files("crates/**/*.antt", "crates/**/*.rt", "crates/**/*.edit")
    for p in paths:
        tokens.update(re.findall(WORD, text(p)))
    taken = {}
    for old, new in sorted(names.items()):
        if new in tokens:
            print(f"falls together: {old} becomes {new}, which stands already")
        if new in taken:
            print(f"falls together: {old} and {taken[new]} become {new}")
        taken[new] = old
    if "--list" in sys.argv:
        for old, new in sorted(names.items()):
            print(old, new)
        return
    for p in paths:
        t = text(p)
        u = re.sub(WORD, lambda m: names.get(m.group(0), m.group(0)), t)
        if u != t:
            with open(p, "w", encoding="utf-8") as f:
                f.write(u)
    for p in files("README.md", "docs/*.md"):
        t = text(p)
        u = re.sub(r"`[^`\n]+`", lambda m: re.sub(WORD, lambda w: names.get(w.group(0), w.group(0)), m.group(0)), t)
        if u != t:
            with open(p, "w", encoding="utf-8") as f:
                f.write(u)


if __name__ == "__main__":
    main()
