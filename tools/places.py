#!/usr/bin/env python3
"""Counts the places of docs/DESIGN-PASS.md, point by point, in crates/*/src (and crates/*/proofs for point 8).

    tools/places.py [--list] [ROOT]     ROOT: the repository (the current folder); --list prints each place
"""
import glob
import os
import re
import sys

LIST = "--list" in sys.argv
ROOT = next((a for a in sys.argv[1:] if not a.startswith("--")), ".")
COLUMNS = ("vars", "lows", "highs", "heads", "links")


def sources():
    for path in sorted(glob.glob(f"{ROOT}/crates/*/src/*.rt")):
        yield os.path.relpath(path, ROOT), re.sub(r"//.*", "", open(path, encoding="utf-8").read())


def functions(text):
    """Each function: its name, its parameters with types, what it gives, its clauses and its body."""
    for m in re.finditer(r"(?m)^( *)(?:pub(?:\([a-z]+\))? )?fn (\w+)(?:<[^>\n]*>)?\(", text):
        depth, j = 0, m.end() - 1
        while True:
            depth += {"(": 1, ")": -1}.get(text[j], 0)
            if depth == 0:
                break
            j += 1
        params = [p.strip() for p in re.split(r",(?![^<\[(]*[>\])])", text[m.end():j]) if p.strip()]
        body = re.compile(rf"(?m)(^{m[1]}\{{$| \{{$)").search(text, j)
        end = re.compile(rf"(?m)^{m[1]}\}}$").search(text, j)
        if not body or not end:
            continue
        head = text[j + 1:body.start()]
        gives = re.match(r"\s*->\s*([^\n]*)", head)
        yield m[2], params, gives[1].strip() if gives else "", head, text[body.end():end.start()]


def types(text):
    for m in re.finditer(r"(?m)^(?:pub )?(struct|enum) (\w+)(?:<[^>\n]*>)? \{\n(.*?)^\}$", text, re.S):
        yield m[1], m[2], m[3], text[max(0, m.start() - 120):m.start()]


def point_1():
    flags = r"\b(full|found|known|thin|wide|counted|failed|read|complete|has_\w+): bool"
    ends = r"(?m)^    (Nothing|Unknown|Improper|Refused|Wrong|Stop|TooWide|Unlisted|Lost)\b"
    for path, text in sources():
        for kind, name, body, _ in types(text):
            if kind == "struct" and re.search(flags, body):
                yield f"{path}: struct {name} has a flag beside a value"
            if kind == "enum" and re.search(ends, body):
                yield f"{path}: enum {name} has the shape of Option or Result"
            if kind == "struct" and re.search(r"\bnumber: u8", body):
                yield f"{path}: struct {name} has a number for a refusal"
        for name, params, gives, head, body in functions(text):
            if gives == "u8" and re.search(r"(?m)^\s*(return )?(7|1[2-9]|2[0-9]|3[0-4]);?$", body):
                yield f"{path}: fn {name} gives a number for a refusal"


def point_2():
    seen = {}
    for path, text in sources():
        for name, params, gives, head, body in functions(text):
            if body.count("\n") < 4:
                continue
            words = re.sub(r"\b\d+\b", "0", f"{params} {gives} {body}")
            words = re.sub(r"\b[ui](8|16|32|64|size)\b", "int", words)
            names = {}
            shape = re.sub(r"[A-Za-z_]\w*", lambda m: names.setdefault(m[0], f"v{len(names)}"), words)
            seen.setdefault(re.sub(r"\s+", " ", shape), []).append(f"{path}: fn {name}")
    for group in seen.values():
        if len(group) > 1:
            yield " and ".join(group)


def point_3():
    for path, text in sources():
        lines = text.split("\n")
        for i, line in enumerate(lines):
            m = re.match(r"( *)(?:'\w+: )?while (.*) \{$", line)
            if not m:
                continue
            end = next(j for j in range(i + 1, len(lines)) if lines[j] == m[1] + "}")
            body = lines[i + 1:end]
            for v in set(re.findall(r"\b[a-z_]\w*\b", m[2])):
                if any(re.match(rf" +{v} [+-]= \d+;$", b) for b in body) and re.search(rf"\b{v}\b *[<>!=]|[<>=] *{v}\b", m[2]):
                    yield f"{path}:{i + 1}: while {m[2]} counts {v}"
                    break


def point_4():
    for path, text in sources():
        for name, params, gives, head, body in functions(text):
            if re.match(r"(same|equal|eq|is_same)\w*$", name) and gives == "bool":
                yield f"{path}: fn {name} compares by hand"
            if re.match(r"(\w+_of|from_\w+|as_\w+)$", name) and len(params) == 1 and re.fullmatch(r"\s*match \w+ \{(\s*[\w:]+( \{[^}]*\})? => [\w:]+,?)+\s*\}\s*", body):
                yield f"{path}: fn {name} converts by hand"


def point_5():
    for path, text in sources():
        for name, params, gives, head, body in functions(text):
            names = [p.split(":")[0].strip() for p in params]
            if sum(c in names for c in COLUMNS) >= 3:
                yield f"{path}: fn {name} has {sum(c in names for c in COLUMNS)} columns of a table one by one"


def point_6():
    pairs = (("list", "words"), ("members", "memberwords"), ("first", "firstwords"), ("xs", "told"), ("members", "struck"))
    for path, text in sources():
        for name, params, gives, head, body in functions(text):
            names = [p.split(":")[0].strip() for p in params]
            for a, b in pairs:
                if a in names and b in names:
                    yield f"{path}: fn {name} has the parallel arrays {a} and {b}"


def point_7():
    for path, text in sources():
        for name, params, gives, head, body in functions(text):
            for p in params:
                if re.match(r"(all|odd|wanted|positive): bool$", p) and re.search(rf"if !?{p.split(':')[0]} \{{", body):
                    yield f"{path}: fn {name} is switched by {p}"


def point_8():
    for path in sorted(glob.glob(f"{ROOT}/crates/*/proofs/**/*.antt", recursive=True)):
        text = open(path, encoding="utf-8").read()
        name = os.path.relpath(path, ROOT)
        if ".before.before" in text:
            yield f"{name}: steps back by .before"
        if re.search(r"true-raw|false-raw", text):
            yield f"{name}: cites true-raw or false-raw"
        if text.count("\n") > 450:
            yield f"{name}: over 450 lines"


for point in (point_1, point_2, point_3, point_4, point_5, point_6, point_7, point_8):
    found = list(point())
    print(f"{point.__name__.replace('_', ' ')}: {len(found)}")
    if LIST:
        for place in found:
            print("   ", place)
