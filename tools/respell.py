#!/usr/bin/env python3
"""respell.py: the repository's own definitions and lemmas in the spelling of today's Rattle: camel case becomes snake case.

Run once, at the top, on what port.py leaves. Types, modules, functions of src/, strings and exported names keep theirs.
With --list it only prints the words that change, one `old new` a line, and those whose new spelling stands already."""
import glob
import re
import sys

# Where the new spelling is not that of the letters alone: a word that std spells otherwise now.
GIVEN = {"getD": "get_or"}
# Lemmas whose names a definition is going to have: they are renamed first, in the files that know them.
LEMMAS = {
    "too_large": ("too_large_lem", ["crates/promises/proofs/TooLarge.antt", "crates/promises/proofs/Refusals.antt"]),
    "one_more": ("one_more_lem", ["crates/promises/proofs/Bound.antt"]),
    "after_run": ("after_run_lem", ["crates/runs/proofs/solve_good/Proof.antt", "crates/runs/proofs/solve_good/Proof/Places.antt"]),
}
LETTERS = r"A-Za-z0-9_'"
# A word that begins small and has a capital after a small letter or a digit.
CAMEL = re.compile(r"(?<![%s◌])([a-z][a-z0-9_']*[A-Z][%s]*)" % (LETTERS, LETTERS))


def snake(word):
    if word in GIVEN:
        return GIVEN[word]
    return re.sub(r"(?<=[a-z0-9'])([A-Z])", lambda m: "_" + m.group(1).lower(), word).replace("__", "_")


def files():
    for pattern in ("crates/*/specs/**/*.antt", "crates/*/proofs/**/*.antt", "crates/*/src/*.rt", "crates/*/must-fail/*.edit", "docs/*.md"):
        yield from sorted(glob.glob(pattern, recursive=True))


def main():
    words, present = {}, set()
    texts = {name: open(name, encoding="utf-8").read() for name in files()}
    for name, text in texts.items():
        present.update(re.findall(r"[%s]+" % LETTERS, text))
        for word in CAMEL.findall(text):
            words[word] = snake(word)
    if "--list" in sys.argv:
        for word, new in sorted(words.items()):
            print(word, new, "STANDS" if new in present else "")
        return
    for old, (new, names) in LEMMAS.items():
        for name in names:
            texts[name] = re.sub(r"(?<![%s.-])%s(?![%s-])" % (LETTERS, old, LETTERS), new, texts[name])
    for name, text in texts.items():
        new = CAMEL.sub(lambda m: words[m.group(1)], text)
        with open(name, "w", encoding="utf-8") as out:
            out.write(new)


main()
