#!/usr/bin/env python3
"""trusted.py [--check]: what has to be believed to read the contracts of the open calls, with its lines. Run it at the repository's root.

It begins with what the sources of the open crates name and follows what that names in turn:
- files of definitions, `crates/*/specs`; lines are counted without comments, imports and `unfolding` lines, which are hints to the prover;
- structs and enums that the sources declare and the definitions match on; their lines are counted too;
- names of the kit: its numbers, lists and tests.
A name that is none of these is an error. --check: ends with status 1 on such a name, and where the section "What has to be believed" of
docs/THEOREMS.md lacks a file, a declared type, a name of the kit (signs apart, which the key explains), or has another number of lines.
"""
import re
import sys
from pathlib import Path

# The open crates: their lib.rt, all of `report`, the exported call over `explain`.
OPEN = ["checker", "nodes", "nodes_c", "node_check", "export", "report", "report_in", "small_export", "books_export", "explain_c"]
SOURCES = {"report": "*.rt"}
PROGRAM = {("report", "Files"), ("report", "Line")}
SMALL = {("small_verdict", "Small"), ("small", "Checked")}
BOOKS = {("shares", "Shares"), ("shares", "Alone"), ("shares", "Books"), ("book_kept", "Kept"), ("book_kept", "Calls"),
         ("verdict", "Run"), ("verdict", "Taken"), ("verdict", "ClauseTaken")}
WHY = {("causes", "Parts"), ("causes", "Causes"), ("causes", "Explanation"), ("causes", "Answers"), ("explain", "Why")}
KIT = ("Prim.", "mathlib.", "native.", "lib.", "io.")
USE = re.compile(r"^(?:ghost )?use ([^\s{;]+?)\.?(?:\{([^}]*)\})?(?: as \S+)?;?$", re.M)
RUST = re.compile(r"^(?:pub )?use ([a-z_]+(?:::[A-Za-z_]+)+)(?:::\{([^}]*)\})?;$", re.M)


def spec(f):
    return Path("crates", f[0], "specs", f[1] + ".antt")


def lines(f):
    kept = (line.strip() for line in spec(f).read_text().splitlines())
    return sum(1 for line in kept if line and not line.startswith(("--", "use ", "unfolding")))


def declared(crate, name):
    """The lines of the struct or enum of that name in the crate's sources, or 0. A constant has one line."""
    for path in sorted(Path("crates", crate, "src").rglob("*.rt")):
        text = path.read_text()
        found = re.search(rf"^pub (?:struct|enum) {name}\b(?:[^{{;]*;|[^{{]*\{{.*?^\}})", text, re.M | re.S)
        if found:
            return sum(1 for line in found.group(0).splitlines() if line.strip() and not line.strip().startswith("//"))
        if re.search(rf"^(?:pub )?const {name}\b", text, re.M):
            return 1
    return 0


class Believed:
    def __init__(self):
        self.specs, self.types, self.kit, self.unknown, self.todo = set(), {}, {}, [], []

    def type(self, crate, name, where):
        count, lib = declared(crate, name), Path("crates", crate, "src", "lib.rt")
        again = re.search(rf"^pub use (\w+)::(?:\w+::)*(?:\{{[^}}]*)?\b{name}\b", lib.read_text(), re.M) if lib.exists() else None
        if not count and again and again[1] != crate:
            return self.type(again[1] if Path("crates", again[1]).is_dir() else crate, name, where)
        if count:
            self.types[crate, name] = count
        else:
            self.unknown.append(f"{crate}::{name} ({where})")

    def antt(self, path):
        """The imports of definitions in a file of definitions or in a source."""
        for name, members in USE.findall(path.read_text()):
            if "::" in name:
                continue
            words = [w.split(" as ")[0].strip() for w in members.split(",") if w.strip()]
            ours = re.match(r"Rattle\.([a-z_]+)\.(specs|proofs)\.(.*)$", name)
            if name.startswith(KIT) or (ours and not Path("crates", ours[1]).is_dir()):
                kit = f"{ours[1]}/{ours[2]}/{ours[3]}" if ours else name
                self.kit.setdefault(kit, set()).update(words)
            elif ours and ours[3].startswith("declared."):
                self.type(ours[1], ours[3].removesuffix(".TheVariants").removesuffix(".TheConstants").split(".")[-1], path)
            elif ours and ours[2] == "specs" and spec((ours[1], ours[3])).exists():
                self.todo.append((ours[1], ours[3]))
            else:
                self.unknown.append(f"{name} ({path})")

    def rust(self, path):
        """The types of other crates that a source names; functions are code, and say no more than their contracts."""
        for name, members in RUST.findall(path.read_text()):
            parts = name.split("::") if not members else name.split("::") + ["*"]
            crate = path.parts[1] if parts[0] == "crate" else parts[0]
            for last in ([parts[-1]] if not members else [m.strip() for m in members.split(",")]):
                if last[:1].isupper() and Path("crates", crate).is_dir():
                    self.type(crate, last, path)

    def follow(self):
        for crate in OPEN:
            for path in sorted(Path("crates", crate, "src").glob(SOURCES.get(crate, "lib.rt"))):
                self.antt(path)
                self.rust(path)
        while self.todo:
            f = self.todo.pop()
            if f not in self.specs:
                self.specs.add(f)
                self.antt(spec(f))


def missing(b, counts):
    text = Path("docs/THEOREMS.md").read_text()
    table = text[text.index("## What has to be believed"):text.index("## Demand 1")]
    said = set(re.findall(r"`([^`]+)`", table))
    wrong = [str(spec(f)) for f in sorted(b.specs) if f"{f[0]}/specs/{f[1]}" not in said and f[1] not in said]
    wrong += [f"{crate}::{name}" for crate, name in sorted(b.types) if name not in said]
    kit = [(module, word) for module, words in sorted(b.kit.items()) for word in sorted(words) if re.search("[a-zℕ]", word)]
    wrong += [f"{module}.{word}" for module, word in kit if word not in said]
    return wrong + [f"{n} lines" for n in counts if not re.search(rf"\b{n}\b", table)]


def main():
    b = Believed()
    b.follow()
    parts = (b.specs - PROGRAM - SMALL - BOOKS - WHY, b.specs & PROGRAM, b.specs & SMALL, b.specs & BOOKS, b.specs & WHY)
    library, program, small, books, why = (sum(map(lines, fs)) for fs in parts)
    types = sum(b.types.values())
    for f in sorted(b.specs):
        print(f"{lines(f):4} {spec(f)}")
    for (crate, name), count in sorted(b.types.items()):
        print(f"{count:4} {crate}::{name}")
    for module, words in sorted(b.kit.items()):
        print(f"     {module}: {', '.join(sorted(words))}")
    print(f"{library:4} lines of definitions for the library, {program} more for the program, {small} more for the check by truth table,")
    print(f"{books:4} more for two books on one table, {why} more for why a check is refused")
    print(f"{types:4} lines of declared types")
    for name in b.unknown:
        print(f"unknown: {name}", file=sys.stderr)
    if "--check" in sys.argv[1:]:
        wrong = missing(b, (library, program, small, books, why, types))
        if wrong:
            sys.exit("docs/THEOREMS.md, What has to be believed: lacks " + ", ".join(wrong))
        if b.unknown:
            sys.exit("trusted.py: names that it cannot resolve")


main()
