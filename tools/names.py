#!/usr/bin/env python3
"""names.py [FILE ..]: the names in backticks that exist nowhere. Run it at the repository's root.

It reads docs/THEOREMS.md, DECISIONS.md, CHANGING.md, ARCHITECTURE.md and GLOSSARY.md, or the files named. A name in backticks is known if it is a
file or folder of the repository (also without its ending, and under crates/), or if each of its words is written in the code: Rattle, Rust, C,
scripts, names of must-fail edits. Ends with status 1 where it lists one.
"""
import glob
import re
import sys
from pathlib import Path

PAGES = ["THEOREMS", "DECISIONS", "CHANGING", "ARCHITECTURE", "GLOSSARY"]
SOURCES = ["crates/*/src/**/*.rt", "crates/*/specs/**/*.antt", "crates/*/proofs/**/*.antt", "rust/**/*.rs", "rust/run", "include/*.h", "bin/*",
           "tools/*.py", "tools/*.sh", "examples/**/*.c", "examples/**/*.rs", "examples/test*", "crates.txt", ".ci/run"]
WORD = re.compile(r"[A-Za-z][\w'′-]*")
# Words of the toolchain and of the notation, and placeholders of a command line.
ELSEWHERE = set("rt doc git worktree add fmt goals dev must fail ci staticlib NAME WHAT OLD NEW CRATE FUNCTION EDIT TO FROM FILE HEAD FACT "
                "axioms VERIFIED using search rules tactic auto cycle".split())


def paths():
    found = set()
    for p in Path(".").rglob("*"):
        parts = p.parts
        if parts[0] in (".git", "target") or "target" in parts:
            continue
        for k in range(len(parts)):
            tail = "/".join(parts[k:])
            found |= {tail, re.sub(r"\.\w+$", "", tail)}
    return found


def words():
    found = set(ELSEWHERE)
    for pattern in SOURCES:
        for name in glob.glob(pattern, recursive=True):
            if "/target/" not in name and Path(name).is_file():
                found |= set(WORD.findall(Path(name).read_text(errors="replace")))
    for name in glob.glob("crates/*/must-fail*/*.edit"):
        found.add(Path(name).stem)
    return found


def main():
    known_paths, known = paths(), words()
    wrong = []
    for page in sys.argv[1:] or [f"docs/{p}.md" for p in PAGES]:
        text = re.sub(r"^( {4}|```).*$", "", Path(page).read_text(), flags=re.M)
        for number, line in enumerate(text.splitlines(), 1):
            for name in re.findall(r"`([^`]+)`", line):
                if name.strip("/") in known_paths:
                    continue
                lost = [w for w in WORD.findall(name) if len(w) > 1 and w not in known and w not in known_paths]
                if lost:
                    wrong.append(f"{page}:{number}: `{name}`: {', '.join(lost)}")
    print("\n".join(wrong) if wrong else "every name in backticks exists")
    sys.exit(1 if wrong else 0)


main()
