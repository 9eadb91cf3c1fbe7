#!/usr/bin/env python3
"""Brings this repository's own words to today's spelling: snake case for definitions, fields and constructors.

usage: tools/respell.py [FOLDER]    after port.py, once, at the top of the repository (or of FOLDER)

A word in lower camel case becomes snake case, as functionOf becomes function_of; a field or a constructor with dashes
takes underscores. Names of lemmas keep their dashes, where port.py left them. Strings, names of Rattle source and all
that the toolchain names stay as they are. It changes .antt files, the clauses of .rt files, and nothing else; with
`--edits` it changes must-fail/*.edit too, and with `--pages` the words in backticks of the pages.
"""

import glob
import os
import re
import sys

WORD = r"[^\s(){}\[\],;.:\"'`«»⌜⌝⟦⟧λ]+'*"
CAMEL = re.compile(r"^[a-zα-ω][a-z0-9α-ω]*(?:[A-Z][a-z0-9]*)+$")
# cOuNt stands in an example of a name in another case, aC in a proof's letters
KEPT = {"cOuNt", "aC"}
# words that would fall together with another: a constructor, and lemmas that would have a definition's name
APART = {
    "FIRST-DIGIT": "FIRST_DIGIT",
    "LAST-DIGIT": "LAST_DIGIT",
    "End-row": "end_row",
    "in-quotes": "within_quotes",
    "is-text": "is_plain_text",
    "cut_out": "cut_out_lem",
    "entry_found": "entry_found_lem",
    "fits_in": "fits_in_lem",
    "goes_on": "goes_on_lem",
    "one_more": "one_more_lem",
    "owners_of": "owners_of_lem",
    "same_text": "same_text_lem",
}


# fields that would hide a definition which their record's types speak of
DASHED = {
    "join-statements",
    "keys-of",
    "read-schema",
    "read-statement",
    "row-statement",
    "thin-schema",
    "thin-statement",
}


def snake(word):
    return re.sub(r"(?<=[a-z0-9])([A-Z])", r"_\1", word).lower()


def files(ending):
    return sorted(p for p in glob.glob(f"crates/**/*.{ending}", recursive=True) if "/out/" not in p)


def read(path):
    with open(path, encoding="utf-8") as f:
        return f.read()


def bare(line):
    """A line of antt without its comment."""
    return re.sub(r"(^|\s)--(\s.*)?$", "", line)


def fields_of(text):
    """Names with dashes that stand as fields of records or constructors of data."""
    found, inside = set(), False
    for line in text.split("\n"):
        if re.match(r"^\s*(pub )?(data|record) ", line):
            inside = True
            continue
        if not line.startswith(" "):
            inside = False
        m = re.match(r"^\s+(?:pub )?((?:" + WORD + r" )+): ", line)
        if inside and m and not line.lstrip().startswith("--"):
            found |= {word for word in m.group(1).split() if "-" in word}
    return found


def table():
    """What each word becomes."""
    to = {}
    for path in files("antt"):
        text = read(path)
        for line in text.split("\n"):
            if re.match(r"^\s*use (?!Rattle\.(?!std\b))", line):
                continue
            for word in re.findall(WORD, bare(line)):
                if CAMEL.match(word) and word not in KEPT:
                    to[word] = snake(word)
        for word in fields_of(text) - DASHED:
            to[word] = word.replace("-", "_").lower()
    return to | APART


def turned(text, to, source):
    def word(m):
        w = m.group(0)
        after_dot = m.start() > 0 and text[m.start() - 1] == "."
        # a name of the source keeps its spelling, and stands in a path behind a dot
        if w in APART and (source or after_dot) and "_" in w:
            return w
        return to.get(w, w)

    return re.sub(WORD, word, text)


def outside_strings(text, to, source=False):
    parts = re.split(r'("(?:[^"\\\n]|\\.)*")', text)
    return "".join(p if i % 2 else turned(p, to, source) for i, p in enumerate(parts))


def write(path, old, new):
    if old != new:
        with open(path, "w", encoding="utf-8") as f:
            f.write(new)


def clash(to):
    """Words that fall together: what a word becomes is a word already, or two become one."""
    words = set()
    for path in files("antt"):
        for line in read(path).split("\n"):
            words |= set(re.findall(WORD, bare(line)))
    back = {}
    for word, new in sorted(to.items()):
        if word in words and new in words:
            print(f"look: {word} becomes {new}, which stands somewhere already")
        if new in back:
            print(f"look: {word} and {back[new]} both become {new}")
        back[new] = word


def main(argv):
    words = [a for a in argv if not a.startswith("--")]
    if words:
        os.chdir(words[0])
    to = table()
    clash(to)
    for path in files("antt") + files("rt"):
        old = read(path)
        write(path, old, outside_strings(old, to, path.endswith(".rt")))
    if "--edits" in argv:
        for path in files("edit"):
            old = read(path)
            write(path, old, outside_strings(old, to, True))
    if "--pages" in argv:
        pages = [p for p in glob.glob("**/*.md", recursive=True) if "/out/" not in p]
        for path in pages:
            old = read(path)
            write(path, old, re.sub(r"`[^`\n]+`", lambda m: turned(m.group(0), to, True), old))
    print(f"{len(to)} words")


main(sys.argv[1:])
