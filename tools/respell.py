#!/usr/bin/env python3
"""Brings the repository's own definitions and lemmas to the spelling of today's library.

usage: python3 tools/respell.py        at the top of the repository, once, after the kit's own respelling

Types and modules are in upper camel case, everything else in snake case: `hasBreakValue` becomes
`has_break_value`, `sure-putIf-as` becomes `sure-put_if-as`. Names made by the checker and strings of the code
keep their spelling. A lemma that would have its function's name gets `_lem`.
"""

import glob
import re

TOKEN = re.compile(r"[A-Za-z_α-ωΑ-Ω₀-₉'][A-Za-z0-9_'₀-₉α-ωΑ-Ω-]*")
STRING = re.compile(r'b?"(?:[^"\\]|\\.)*"')

# Functions to `Bool` that were spelled as types, and the files that speak of them.
FUNCTIONS = {"Plain": "is_plain", "Known": "is_known"}
FUNCTION_FILES = {
    "crates/meaning/specs/Writer.antt",
    "crates/meaning/proofs/WritersLaw.antt",
    "crates/records/proofs/Expressions.antt",
    "crates/setting/proofs/Segments.antt",
}

# Lemmas whose names would fall together with the respelled name of the function that they speak of.
LEMMAS = {"same_bytes": "same_bytes_lem"}
LEMMA_FILES = {"crates/meaning/proofs/Found.antt"}


def part(word):
    """One part of a name between dashes."""
    if not re.match(r"[a-z]", word) or not re.search(r"[a-z0-9][A-Z]", word):
        return word
    return re.sub(r"([a-z0-9])([A-Z])", r"\1_\2", word).lower()


def name(token):
    return "-".join(part(p) for p in token.split("-"))


def names(text):
    return TOKEN.sub(lambda m: name(m.group()), text)


def outside_strings(text):
    done, last = [], 0
    for m in STRING.finditer(text):
        done += [names(text[last : m.start()]), m.group()]
        last = m.end()
    return "".join(done + [names(text[last:])])


def functions(path, text):
    if path not in FUNCTION_FILES:
        return text
    return TOKEN.sub(lambda m: FUNCTIONS.get(m.group(), m.group()), text)


def lemmas(path, text):
    if path not in LEMMA_FILES:
        return text
    return TOKEN.sub(lambda m: LEMMAS.get(m.group(), m.group()), text)


def users_of_lemmas(path, text):
    """Imports and uses of a renamed lemma in files that import it."""
    for old, new in LEMMAS.items():
        if re.search(r"proofs\.Found\.\{[^}]*\b" + old + r"\b", text):
            text = re.sub(r"(?<![\w'-])" + old + r"(?![\w'-])", new, text)
    return text


def main():
    changed = 0
    for ending in ("antt", "rt", "edit"):
        for path in sorted(glob.glob("crates/**/*." + ending, recursive=True)):
            if "/out/" in path:
                continue
            with open(path, encoding="utf-8") as f:
                old = f.read()
            text = users_of_lemmas(path, lemmas(path, functions(path, old))) if ending == "antt" else old
            text = outside_strings(text) if ending == "rt" else names(text)
            if text != old:
                changed += 1
                with open(path, "w", encoding="utf-8") as f:
                    f.write(text)
    print(f"{changed} files respelled")


main()
