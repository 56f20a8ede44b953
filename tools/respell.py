#!/usr/bin/env python3
"""Spells the names that this repository declares in specs/ and proofs/ with underscores in place of dashes.

usage: python3 tools/respell.py            at the top of the repository, once

A definition, a constructor, a field, a lemma, and a value that a lemma binds: `with-end` becomes `with_end`.
The names that Rattle makes of the source (of goals, steps and their fields) keep their dashes, and so do the names
of the library. Functions of src/ keep theirs; inputs and outputs are not read.
It stops, and writes nothing, where a new name stands in some file already and APART does not say why that is no matter.
"""

import os
import re
import sys

# a name as antt cuts it
WORD = r"[^\s(){}\[\].;,:@\"«»]+"
# what a line of specs/ or proofs/ declares, and what a term binds
DECLARED = re.compile(rf"(?m)^ *(?:(?:pub|abbrev|unfoldable|record|data) )*({WORD})(?: [({{][^\n]*?[)}}])* :")
BOUND = [re.compile(p) for p in (rf"\blet ({WORD}) ", rf"λ ((?:{WORD} )*{WORD})\. ")]
HEAD = re.compile(rf"(?m)^ *({WORD}(?: {WORD})+) =")
IMPORTED = re.compile(r"(?m)^ *(?:ghost )?use Rattle\.std[^{;\n]*(?:\{[^}]*\})?;?")
# names of the library inside a name, which it spells otherwise today
INSIDE = {"leZ": "int_le"}
# a lemma that would have a function's name
LEMMAS = {"is-tighter": "is_tighter_lem"}
# new names that stand elsewhere already
APART = {
    "few_rules": "a field of the record Passed; the ghost field of Draft belongs to another record",
    "few_views": "a field of the record Passed; the ghost field of Draft belongs to another record",
    "first_failing": "a definition; the function of that name is the program trials' own",
    "window_of": "a definition; the function of that name is the program tour's own",
}


def files(top):
    for folder, dirs, names in os.walk(os.path.join(top, "crates")):
        dirs[:] = sorted(d for d in dirs if d not in ("out", "must-fail"))
        for name in sorted(names):
            if name.endswith((".antt", ".rt")):
                yield os.path.join(folder, name)


def is_answer(path):
    return os.path.basename(path) in ("Answers.antt", "Invariants.antt")


def without_comments(text):
    return re.sub(r"(?m)--.*$|//.*$", "", text)


def new_name(name):
    if name in LEMMAS:
        return LEMMAS[name]
    for old, new in INSIDE.items():
        name = re.sub(rf"(?<![A-Za-z0-9_]){old}(?![A-Za-z0-9_])", new, name)
    return name.replace("-", "_")


def declared(texts):
    names = set()
    for path, text in texts.items():
        if not path.endswith(".antt"):
            continue
        text = IMPORTED.sub("", without_comments(text))
        for bound in BOUND:
            for m in bound.finditer(text):
                names.update(m.group(1).split())
        if not is_answer(path):
            names.update(m.group(1) for m in DECLARED.finditer(text))
            for m in HEAD.finditer(text):
                names.update(m.group(1).split())
    return {n for n in names if "-" in n and re.match(r"[A-Za-z_]", n)}


def main(top):
    texts = {}
    for path in files(top):
        with open(path, encoding="utf-8") as f:
            texts[path] = f.read()
    library = set()
    for text in texts.values():
        for m in IMPORTED.finditer(text):
            library.update(re.split(r"[\s{},.;]+", m.group(0)))
    table = {n: new_name(n) for n in sorted(declared(texts) - library)}
    words = set()
    for text in texts.values():
        words.update(re.findall(WORD, text))
    clash = [new for new in table.values() if new in words and new not in APART]
    twice = {new for new in table.values() if list(table.values()).count(new) > 1}
    if clash or twice:
        print("stand already:", *sorted(set(clash) | twice))
        return 1
    for old, new in table.items():
        print(f"{old}\t{new}")
    token = re.compile(WORD)
    for path, text in texts.items():
        turned = token.sub(lambda m: table.get(m.group(0), m.group(0)), text)
        if turned != text:
            with open(path, "w", encoding="utf-8") as f:
                f.write(turned)
    return 0


if __name__ == "__main__":
    sys.exit(main(os.getcwd()))
