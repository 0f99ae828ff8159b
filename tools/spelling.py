#!/usr/bin/env python3
"""Gives the repository's own definitions and lemmas the spelling of today's Rattle: words in snake case. Run once, at the top, after port.py.
It goes over specs/, proofs/, src/ and the must-fail edits. Types, modules, names of Rust functions and names of three letters stay."""
import pathlib
import re

WORD = re.compile(r"(?<![\w'])[A-Za-z_][\w'?-]*")
CAMEL = re.compile(r"(^|[-_])[a-z][a-z0-9]*[A-Z]")
# The older library's word, which is get_or today.
SPECIAL = {"getD": "get_or"}


def part(word):
    if word in SPECIAL:
        return SPECIAL[word]
    if len(word) <= 3 or not re.match(r"[a-z]", word):
        return word
    return re.sub(r"([a-z0-9])([A-Z]+)", lambda m: m[1] + "_" + m[2].lower(), word)


def spelled(match):
    word = match[0]
    return "-".join(part(p) for p in word.split("-")) if CAMEL.search(word) else word


def main():
    for pattern in ("crates/*/specs/**/*.antt", "crates/*/proofs/**/*.antt", "crates/*/src/**/*.rt", "crates/*/must-fail*/*.edit"):
        for path in sorted(pathlib.Path(".").glob(pattern)):
            old = path.read_text(encoding="utf-8")
            new = WORD.sub(spelled, old)
            if new != old:
                path.write_text(new, encoding="utf-8")


if __name__ == "__main__":
    main()
