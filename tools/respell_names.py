#!/usr/bin/env python3
"""Spells this repository's own definitions, lemmas, fields and constructors as today's Rattle has them: words in snake case, facts in camel case.

usage: tools/respell_names.py [FOLDER]      FOLDER: the top of a repository that port.py has turned; default: where it is called

Run it once, after port.py. A dash stays where it joins names that are declared; else it becomes an underscore. Functions of src/ keep their names,
and so does what stands in a function's own folder below proofs/, but for the names that it cites. Edits that must be refused, which port.py leaves,
get the new names as well as the spelling of its operators. It prints what it renamed, and what two names would have fallen together.
"""

import collections
import os
import re
import sys

DECLARED = re.compile(r"^(?:(?:abbrev|unfoldable|pub|open|mutual)\s+)*([^\s(){}:;,]+)\s*:(?!\S)", re.M)
TOKEN = re.compile(r'[^\s(){}.;,@"«»]+')
# Facts that were spelled as functions.
FACTS = {"waitingTyped": "WaitingTyped", "listTyped": "ListTyped", "imageTyped": "ImageTyped"}
# Lemmas and labels that would have got the name of a definition: below the folder, the word, what it becomes.
APART = [
    ("printer/proofs/", "one_more", "one_more_lem"),
    ("interpreter/proofs/StopWords.antt", "one_more", "one_more_lem"),
    ("printer/proofs/Columns.antt", "last_byte", "last_byte_lem"),
    ("printer/proofs/NoBytes.antt", "no_byte", "no_byte_lem"),
    ("printer/proofs/Claims.antt", "no_byte", "no_byte_lem"),
    ("printer/proofs/Claims.antt", "gives_back", "gives_back_lem"),
    ("printer/proofs/Frames.antt", "read_as", "read_as_lem"),
    ("writer/proofs/ReadBack.antt", "down_step", "down_step_lem"),
    ("standing/proofs/Answer.antt", "line_read", "line_read_lem"),
]
# A definition whose new name a label has.
OTHERWISE = {"onLine": "on_line_at"}
# Crates that a library of the kit has the name of.
CRATES = {"hex": "hex_lines"}
OWN_FILES = ("Proof.antt", "Answers.antt", "Invariants.antt")


def files(root):
    for folder, below, names in os.walk(os.path.join(root, "crates")):
        below[:] = sorted(d for d in below if d != "out")
        for name in sorted(names):
            if name.endswith((".antt", ".rt", ".edit")):
                yield os.path.join(folder, name)


def is_camel(word):
    return word[:1].islower() and re.search(r"[a-z0-9][A-Z]", word)


def snake(word):
    word = re.sub(r"([a-z0-9])([A-Z])", r"\1_\2", word)
    return "-".join(w if w[:1].isupper() else w.lower() for w in word.split("-"))


def of_a_function(path):
    return "/proofs/" in path and os.path.basename(path) in OWN_FILES


def uncommented(path, text):
    return re.sub(r"--[^\n]*" if path.endswith(".antt") else r"//[^\n]*", "", text)


def read(path):
    with open(path, encoding="utf-8") as f:
        return f.read()


def names(texts):
    """What the repository declares outside functions' own folders, and each camel word of its proofs and definitions."""
    declared, words = set(), set()
    for path, text in texts.items():
        if path.endswith(".antt"):
            text = uncommented(path, text)
            if not of_a_function(path):
                declared |= set(DECLARED.findall(text))
            words |= {w for w in TOKEN.findall(text) if is_camel(w) and "-" not in w}
    return declared, words


def new_names(texts):
    declared, words = names(texts)
    plain = {w for t in texts.values() for w in TOKEN.findall(t)}
    bare = {snake(d) for d in declared if "-" not in d} | {"append", "length", "take", "drop", "map", "nil", "add", "sub", "mul"}
    new = {}
    for word in sorted(declared | words):
        if word in FACTS:
            new[word] = FACTS[word]
        elif word[:1].islower() and "-" in word:
            parts = [snake(p) for p in word.split("-")]
            joined = "-" if all(p in bare for p in parts) else "_"
            new[word] = joined.join(parts)
        elif is_camel(word):
            new[word] = OTHERWISE.get(word, snake(word))
    for word in list(new):
        # A lemma on a definition of the same words.
        if "-" in word and new[word] != word and (new[word] in plain or any(new.get(o) == new[word] for o in new if o != word)):
            new[word] += "_lem"
    new = {old: to for old, to in new.items() if old != to}
    clash = collections.defaultdict(list)
    for old, to in new.items():
        clash[to].append(old)
    together = {to: olds for to, olds in clash.items() if len(olds) > 1 or to in plain}
    return new, together


def respelled(path, text, new, plain):
    apart = {word: to for below, word, to in APART if "/crates/" + below in "/" + path.lstrip("./")}
    new = new | apart

    def turn(m):
        return new.get(m[0], m[0])

    for crate, to in CRATES.items():
        text = re.sub(rf"\bRattle\.{crate}\.", f"Rattle.{to}.", text)
        if path.endswith(".rt"):
            text = re.sub(rf"\b{crate}::", f"{to}::", text)

    if path.endswith(".edit"):
        new = new | {w: snake(w) for w in TOKEN.findall(text) if is_camel(w) and w not in new and snake(w) in plain}
        text = re.sub(r"\(([\w]+(?: \.\w+)+)\)", lambda m: m[1].replace(" .", "."), text)
        text = re.sub(r"(?<=[\w)]) \.(?=[a-z])", ".", text)
    if path.endswith(".rt"):
        # Words of clauses and of ghost imports; code has none of these.
        return re.sub(r"(?<![\w'-])[^\W\d][\w'-]*(?![\w'-])", turn, text)
    return TOKEN.sub(turn, text)


def move(root, crate, to):
    os.rename(os.path.join(root, "crates", crate), os.path.join(root, "crates", to))
    path = os.path.join(root, "crates.txt")
    text = re.sub(rf"(?<![\w-]){crate}(?![\w-])", to, read(path))
    with open(path, "w", encoding="utf-8") as f:
        f.write(text)


def main(argv):
    root = argv[0] if argv else "."
    texts = {p: read(p) for p in files(root)}
    new, together = new_names(texts)
    plain = {w for t in texts.values() for w in TOKEN.findall(t)}
    for to, olds in sorted(together.items()):
        print(f"together: {to}: {' '.join(olds)}")
    for path, text in texts.items():
        turned = respelled(path, text, new, plain)
        if turned != text:
            with open(path, "w", encoding="utf-8") as f:
                f.write(turned)
    for crate, to in CRATES.items():
        move(root, crate, to)
    print("\n".join(f"{old} {to}" for old, to in sorted(new.items())))


if __name__ == "__main__":
    main(sys.argv[1:])
