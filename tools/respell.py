#!/usr/bin/env python3
"""Spells this repository's own definitions, lemmas and variables in snake case, as today's Rattle asks: pagesOf becomes pages_of.

usage: respell.py [--check]        at the top of the repository, once, after port.py

It changes words of specs/ and proofs/, the ghost lines and clauses of src/, the must-fail edits, and words in `..` of the pages.
A word stays where a `use` line brings it from a library. Types and modules (a first capital) stay, and so do functions of src/,
which are in snake case already. Folders and files keep their names. Words that would fall together are printed as 'look:',
with the file where both stand. Besides, each plain type that port.py gave `derive(Drop)` is one that was copied freely until now, so it
gets `derive(Clone, Copy)` in its place, and each root file its line `#![tactic(auto)]`. --check writes nothing.
"""
import os
import re
import subprocess
import sys

WORD = re.compile(r"[^\s(){}\[\],;.:=\"'`]+")
# Lemmas and hypotheses that port.py spelled as a definition would now be; those of one crate alone, where a function
# of src/ has that name elsewhere.
BACK = {"stands_at": "stands-at", "set_cases": "set-cases", "piece_bytes": "piece-bytes", "goes_on": "goes-on",
        "at_last": "at-last"}
BACK_IN = {"crates/stations/": {"plain_at": "plain-at"}}
HUMP = re.compile(r"(?<=[a-z0-9])(?=[A-Z])")
USE = re.compile(r"^\s*(?:pub )?(?:ghost )?use ([^\s{;]+?)\.?(?:\{([^}]*)\})?;?\s*$", re.M)
AUTO = "#![tactic(auto)]"


def files():
    listed = subprocess.run(["git", "ls-files"], capture_output=True, text=True, check=True).stdout.split("\n")
    return [f for f in listed if f and os.path.isfile(f)]


def read(path):
    with open(path, encoding="utf-8") as f:
        return f.read()


def snake(word):
    """Returns the word in snake case, or itself where it is none that this script turns."""
    if not re.fullmatch(r"[a-z][A-Za-z0-9_'₀-₉-]*", word) or not HUMP.search(word):
        return word
    return "-".join(HUMP.sub("_", part).lower() for part in word.split("-"))


def back(path):
    """Returns the words that go back to their old spelling in a file."""
    return BACK | next((words for folder, words in BACK_IN.items() if path.startswith(folder)), {})


def crates():
    return {m[1] for m in re.finditer(r"^(\w+)", read("crates.txt"), re.M)}


def with_auto(text):
    """Returns a root file with the line that lets the check try its tactics, under its first comment."""
    lines = text.split("\n")
    at = next(i for i, it in enumerate(lines) if not it.startswith(("//", "#![")))
    return text if AUTO in lines else "\n".join(lines[:at] + [AUTO] + lines[at:])


def main():
    own, check = crates(), "--check" in sys.argv
    old = {f: read(f) for f in files() if f.endswith((".antt", ".rt", ".edit", ".md")) or f == "tests/moved"}
    texts = {f: WORD.sub(lambda m: back(f).get(m[0], m[0]), t) if f.endswith(".antt") else t for f, t in old.items()}
    brought, words = set(), set()
    for f, text in texts.items():
        if not f.endswith((".antt", ".rt")):
            continue
        for path, names in USE.findall(text):
            if not re.match(r"Rattle\.(%s)\." % "|".join(own), path):
                brought |= set(WORD.findall(path.replace(".", " "))) | set(WORD.findall(names or ""))
        if f.endswith(".antt"):
            words |= set(WORD.findall(re.sub(r"--.*", "", text)))
    table = {w: snake(w) for w in words if snake(w) != w and w not in brought}
    known = words | set(table.values())
    changed = 0
    for f, text in texts.items():
        has = set(WORD.findall(text))
        for w in sorted(has & set(table)):
            if table[w] in has:
                print(f"look: {f}: {w} and {table[w]}")

        def turn(m):
            return table.get(m[0], m[0])

        def told(m):
            # port.py has turned some words in the crates that the pages still spell as before
            return table.get(m[0]) or (snake(m[0]) if snake(m[0]) in known else m[0])

        new = re.sub(r"`[^`\n]*`", lambda q: WORD.sub(told, q[0]), text) if f.endswith(".md") else WORD.sub(turn, text)
        if f.endswith(".rt"):
            new = new.replace("#[derive(Drop)]", "#[derive(Clone, Copy)]")
            new = with_auto(new) if f.endswith(("src/lib.rt", "src/main.rt")) else new
        if new != old[f]:
            changed += 1
            if not check:
                with open(f, "w", encoding="utf-8") as it:
                    it.write(new)
    print(f"{len(table)} words; {changed} files")


if __name__ == "__main__":
    main()
