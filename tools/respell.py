#!/usr/bin/env python3
"""Turns the dashes in this repository's own ghost names to underscores, as `link-check` to `link_check`.

usage: python3 tools/respell.py            at the top, once, right after the toolchain's port.py

Own are the definitions, fields, constructors, lemmas and local names that the .antt files below crates/ declare. Names of the
library and names that the check makes for goals and steps keep their dashes. It turns .antt files, and of .rt files what is
neither comment nor string: there only clauses and ghost items can hold such a name. Two names that would fall together stop it.
"""

import os
import re

WORD = re.compile(r'[^\s(){}.;,@"«»]+')
SKIPPED = {".antt": re.compile(r"(?<!\S)--(?=\s|$)[^\n]*"), ".rt": re.compile(r'"(?:\\.|[^"\\])*"|//[^\n]*')}
DECLARED = re.compile(r"\s*(?:(?:pub|abbrev|unfoldable|data|record|ruleset)\s+)*([^\s(){}.;,@]+)\s*(?:[{(][^{}()]*[)}]\s*)*:(.*)")
# Local names of proofs, which no signature declares.
LOCALS = ["broken-holds", "empty-there", "holds-none", "no-y", "way-b", "yes-x"]


def files():
    for folder, folders, names in os.walk("crates"):
        folders[:] = sorted(f for f in folders if f != "out")
        for name in sorted(names):
            if os.path.splitext(name)[1] in SKIPPED:
                yield os.path.join(folder, name)


def between(skipped, text, turn):
    """The text with each part between the skipped ones turned."""
    parts, at = [], 0
    for m in skipped.finditer(text):
        parts += [turn(text[at : m.start()]), m[0]]
        at = m.end()
    return "".join(parts + [turn(text[at:])])


def table(texts):
    """Each own name with a dash, and its new spelling."""
    own, declared = set(LOCALS), set()
    for path, text in texts.items():
        if not path.endswith(".antt"):
            continue
        for line in SKIPPED[".antt"].sub("", text).split("\n"):
            m = DECLARED.match(line)
            if not m:
                continue
            declared.add(m[1])
            if "-" in m[1].strip("-") and "goal." not in m[2]:
                own.add(m[1])
    turned = {name: name.replace("-", "_") for name in own}
    together = sorted(name for name, new in turned.items() if new in declared)
    if together or len(set(turned.values())) < len(turned):
        raise SystemExit(f"names would fall together, and nothing was written: {together or sorted(turned)}")
    return turned


def main():
    texts = {}
    for path in files():
        with open(path, encoding="utf-8") as f:
            texts[path] = f.read()
    turned = table(texts)
    for path, text in texts.items():
        skipped = SKIPPED[os.path.splitext(path)[1]]
        new = between(skipped, text, lambda t: WORD.sub(lambda m: turned.get(m[0], m[0]), t))
        if new != text:
            with open(path, "w", encoding="utf-8") as f:
                f.write(new)
    print(f"{len(turned)} names have underscores now")


if __name__ == "__main__":
    main()
