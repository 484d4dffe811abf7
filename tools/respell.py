#!/usr/bin/env python3
"""Spells this repository's own definitions and lemmas in snake case, as today's library does: `leafString` becomes `leaf_string`.

usage: python3 tools/respell.py [FILE..]        at the top of the repository, after the kit's port.py

With no FILE it goes over all .antt files of crates/*/specs and crates/*/proofs, and all .rt files of crates/*/src. Functions, fields, exported names and
strings of the code have no such name and stay. A second run changes nothing.
"""

import glob
import re
import sys

# A word of the repository in camel case. Words with one letter before or behind the capital, as `hA`, are bound variables, and stay.
CAMEL = re.compile(r"(?<![\w'])([a-z][a-z0-9]+(?:[A-Z][a-z0-9]+)+|timesX|[nt]In)(?![\w'])")
# Lemmas that port.py wrote with '_', and that would now have a definition's name: they have their dash again.
LEMMAS = ["all_lie", "at_first", "at_second", "entry_length", "entry_read", "skip_block", "with_root", "zero_bits"]
# What the library's `getD` is called today, in the names of lemmas about it.
GET = re.compile(r"(?<![\w'])getD(?![\w'])")


def snake(found):
    return re.sub(r"[A-Z]", lambda m: "_" + m[0].lower(), found[0])


def respelled(path, text):
    if path.endswith(".antt"):
        # not in a path of what the code calls so, as c.all_lie.result, .proofs.all_lie or a folder's name
        for name in LEMMAS:
            text = re.sub(rf"(?<![\w'.·-]){name}(?![\w'.-])", name.replace("_", "-"), text)
        text = text.replace("get_d_tabulate", "get_or-tabulate")
    return CAMEL.sub(snake, GET.sub("get_or", text))


def main():
    paths = sys.argv[1:]
    for top, end in (("specs", "antt"), ("proofs", "antt"), ("src", "rt")):
        if not sys.argv[1:]:
            paths += sorted(glob.glob(f"crates/*/{top}/**/*.{end}", recursive=True))
    texts = {}
    for path in paths:
        with open(path, encoding="utf-8") as f:
            texts[path] = f.read()
    # Where no name is left to spell, the lemmas' names are right already.
    if not any(CAMEL.search(text) for text in texts.values()):
        return
    for path, text in texts.items():
        new = respelled(path, text)
        if new != text:
            with open(path, "w", encoding="utf-8") as f:
                f.write(new)


if __name__ == "__main__":
    main()
