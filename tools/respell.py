#!/usr/bin/env python3
"""Respells the repository's own definitions and lemmas: words in snake case, types in camel case.

usage: tools/respell.py [--list]      at the top of the repository, once, right after the kit's port.py

A name is respelled where a file of specs/ or proofs/ declares it: `sameFields` and `fits-room` become `same_fields` and
`fits_room`. Goals of functions keep the names that Rattle gives them, and the Rust code keeps its names. Where a lemma
falls together with a definition it gets `_lem`. With --list nothing is written.
"""

import os
import re
import sys

WORD = r"[^\s(){}\[\],;.:\"⌜⌝⟦⟧«»@λ∷⊢|]+"
DECLARED = re.compile(r"^(\s*)((?:abbrev |unfoldable |pub |data |record )*)(" + WORD + r")((?: [^:=]*)?) : (.*)$")
IMPORTED = re.compile(r"(?m)^(?:ghost )?use ([^\s{]+)\.\{([^}]*)\}")
ANSWERS = ("Answers.antt", "Invariants.antt", "Proof.antt", "Choices.antt")


def files(root, *endings):
    for folder, dirs, names in os.walk(os.path.join(root, "crates")):
        dirs[:] = sorted(d for d in dirs if d != "out")
        for name in sorted(names):
            if name.endswith(endings):
                yield os.path.join(folder, name)


def text_of(path):
    with open(path, encoding="utf-8") as f:
        return f.read()


def respelled(name):
    if name[:1].isupper():
        return "".join(part[:1].upper() + part[1:] for part in name.split("-"))
    return re.sub(r"(?<=[a-z0-9])([A-Z])", lambda m: "_" + m[1].lower(), name).replace("-", "_")


def declared(root):
    """Each declared name: how it ranks where names fall together (definitions first), and the files that declare it."""
    found = {}
    for path in files(root, ".antt"):
        answers = os.path.basename(path) in ANSWERS
        for line in text_of(path).split("\n"):
            m = DECLARED.match(line)
            if not m or m[3] in ("--", "let", "in", "use", "pub"):
                continue
            indent, words, name, _, what = m.groups()
            if indent and not words and not re.match(r"  \S", line):
                continue
            if answers and (indent or what.startswith("goal.")):
                continue
            rank = 0 if "/specs/" in path else 1 if "abbrev" in words else 2
            old = found.get(name, (rank, set()))
            found[name] = (min(rank, old[0]), old[1] | {path})
    return {n: f for n, f in found.items() if re.fullmatch(r"[A-Za-z][A-Za-z0-9_'\-]*", n)}


def library_words(root):
    """The names that files import from outside the repository."""
    own = {f"Rattle.{c}" for c in os.listdir(os.path.join(root, "crates"))}
    words = set()
    for path in files(root, ".antt"):
        for module, names in IMPORTED.findall(text_of(path)):
            if ".".join(module.split(".")[:2]) not in own:
                words |= {name.split(" as ")[-1].strip() for name in names.split(",")}
    return words


def table(root):
    """The new name of each name that changes, and those of lemmas that had the new spelling already."""
    found = declared(root)
    taken, names, lemmas = {word: None for word in library_words(root)}, {}, {}
    for name in sorted(found, key=lambda n: (found[n][0], "-" in n, n)):
        new = respelled(name)
        if taken.get(new, name) != name and (taken[new] or new != name):
            new += "_lem"
        taken[new] = name
        if new != name:
            (names if respelled(name) != name else lemmas)[name] = new
    return names, lemmas, found


def rewrite(path, names, pattern):
    old = text_of(path)
    new = pattern.sub(lambda m: names.get(m[0], m[0]), old)
    if new != old:
        with open(path, "w", encoding="utf-8") as f:
            f.write(new)


def main():
    root = os.getcwd()
    names, lemmas, found = table(root)
    if "--list" in sys.argv:
        for old, new in sorted({**names, **lemmas}.items()):
            print(old, new)
        return
    word = re.compile(r"(?<![A-Za-z0-9_'\-])[A-Za-z][A-Za-z0-9_'\-]*")
    for path in files(root, ".antt"):
        # A lemma that was spelled like a definition's new name is renamed where it is declared or imported.
        text = text_of(path)
        here = {n: m for n, m in lemmas.items() if path in found[n][1] or re.search(r"(?m)^use .*\.\{[^}]*\b" + n + r"\b", text)}
        rewrite(path, {**names, **here}, word)
    # In the Rust code no name has a capital inside a word that begins with a small letter, and no name has a dash.
    clear = {n: m for n, m in names.items() if n[:1].islower() and n != respelled(n)}
    for path in files(root, ".rt", ".edit"):
        rewrite(path, clear, word)


main()
