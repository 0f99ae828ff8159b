#!/usr/bin/env python3
"""layers.py [--check]: draws docs/layers.svg from crates.txt and from what the crates' files name. Run it at the repository's root.

A crate stands one floor above the highest crate that it depends on. A solid arrow: its code calls the other or holds its types; a dashed one:
only contracts, definitions or proofs name it. Arrows that follow from a chain of others are left out. --check: ends with status 1 where the
picture in docs/ is not the one that this script draws.
"""
import re
import sys
from pathlib import Path

WORDS = {
    "causes": "a refusal's cause, defined", "pieces": "the piece shown", "traces": "literals fixed, by round",
    "why": "14's child, 18's assignment", "record_causes": "14's and 18's cause", "remake": "a line's records again", "tell": "19's cause",
    "path_causes": "19's, of a path line", "clause_causes": "19's, of a DRAT clause", "command_causes": "the cause of a command",
    "line_again": "the refused state again", "cause_again": "its cause", "explain": "why a check refuses", "explain_c": "its archive",
    "meaning": "01's rules, defined", "records": "reads the proof", "words": "sets of variables", "table": "nodes, order, index",
    "dimacs": "reads the formula", "grammar": "what DIMACS is", "walks": "values, constants", "clause": "a clause's diagram",
    "verdict": "the check, defined", "operate": "the four operations", "thin": "without a memo", "memo": "results in cells",
    "units": "U of a diagram", "negate": "negations found",
    "conflict": "rule (a)", "supports": "a node's variables", "single": "the single calls", "propagate": "unit propagation",
    "members": "members replaced", "unit_search": "first member with units", "touched": "members to change",
    "quiet": "most members known", "judge": "RUP lines", "turn_memo": "turns judged", "pr_turn": "a member's turn", "pr_lines": "PR lines", "path_lines": "path lines", "paths": "paths to 0, in order", "profile": "what the profile admits",
    "good_order": "good order, tested", "check_call": "sizes, working arrays", "state": "between two commands",
    "steps": "a record's step", "entries": "records that make entries", "formula": "makes the clauses",
    "replay": "command after command", "session": "the whole check", "checker": "calls with no requires",
    "demands": "the demands' theorems", "order": "members in any order", "nodes": "single calls, node structs", "nodes_c": "its archive", "node_check": "the check, node structs", "report": "line and status",
    "report_in": "in the caller's table",
    "export": "the archive for C, Rust", "program": "two files, one line", "refute": "the program, records", "refute_drat": "the program, DRAT",
    "refute_in": "the program, a mode", "drat_convert": "the converter", "rows": "an example's line",
    "cases": "runs 01's examples", "changes": "runs 02's examples",
    "sets": "parity, at least", "binomial": "C(n, k), stored",
    "clearing": "lists made all zero", "columns": "nodes to columns, back",
    "room": "more room, same result", "truth": "words of 64 bits", "truth_entries": "words of entries",
    "truth_rules": "RUP, PR over words", "truth_paths": "paths over words", "small_verdict": "six variables, defined",
    "exactness": "orders, counts, room",
    "small": "the check over words", "small_export": "its own archive",
    "clausal": "RUP, RAT on clauses", "commands": "what stands next", "convert": "DRAT, text and binary", "tries": "a clause's step",
    "shares": "two books, defined", "share_rows": "sessions computed", "alone": "a book's own table", "book_parts": "a book's call, in parts",
    "book_open": "opened for two books", "book_line": "a line's call", "book_judge": "first and later calls", "book_sizes": "working arrays", "book_call": "a book's call",
    "book_kept": "what is kept, as lent", "books_export": "two books, for C, Rust",
}
OPEN = {"checker", "nodes", "nodes_c", "node_check", "explain_c", "export", "small_export", "books_export", "refute", "refute_drat", "refute_in", "drat_convert", "cases", "changes"}
WIDTH, HEIGHT, ACROSS, UP, TOP = 158, 44, 190, 78, 64
SOLID, DASHED = "#444444", "#3b6fb5"


def read_crates():
    crates = {}
    for line in Path("crates.txt").read_text().splitlines():
        name, colon, deps = line.split("#")[0].partition(":")
        if colon:
            crates[name.split()[0]] = deps.split()
    return {c: [d for d in ds if d in crates] for c, ds in crates.items()}


def code_names(crate):
    """The crates that the code of a crate names, comments and contracts left out."""
    names = set()
    for path in Path("crates", crate, "src").glob("**/*.rt"):
        for line in path.read_text().splitlines():
            if not line.strip().startswith("ghost use"):
                names |= set(re.findall(r"(?<![\w:])([a-z_]+)::", re.sub(r"//.*", "", line)))
    return names


def floors(crates):
    floor = {}

    def of(c):
        if c not in floor:
            floor[c] = 1 + max((of(d) for d in crates[c]), default=0)
        return floor[c]

    return {c: of(c) for c in crates}


def arrows(crates):
    """The arrows that follow from no others."""
    reach = {}
    for c in sorted(crates, key=floors(crates).get):
        reach[c] = set(crates[c]).union(*(reach[d] for d in crates[c]))
    return [(c, d) for c in crates for d in crates[c] if not any(d in reach[x] for x in crates[c] if x != d)]


def ways(lines, floor):
    """An arrow that passes floors has a bend on each of them, so that it does not run behind a crate."""
    return {(a, b): [a] + [(a, b, f) for f in range(floor[a] - 1, floor[b], -1)] + [b] for a, b in lines}


def places(floor, chains):
    """A column for each crate and each bend: near those that it is tied to, and none over another."""
    level, near = dict(floor), {c: [] for c in floor}
    for chain in chains.values():
        for up, down in zip(chain, chain[1:]):
            near.setdefault(up, []).append(down)
            near.setdefault(down, []).append(up)
            level.setdefault(down, level[up] - 1)
    rows = [[c for c in near if level[c] == f] for f in sorted(set(level.values()))]
    x = {c: i - (len(row) - 1) / 2 for row in rows for i, c in enumerate(row)}
    apart = lambda a, b: (0.5 if a in floor else 0.16) + (0.5 if b in floor else 0.16)
    for turn in range(120):
        for row in rows if turn % 2 else reversed(rows):
            want = {c: sum(x[y] for y in near[c]) / max(1, len(near[c])) for c in row}
            row.sort(key=lambda c: (want[c], str(c)))
            at = [0.0]
            for left, right in zip(row, row[1:]):
                at.append(max(want[right] - want[row[0]], at[-1] + apart(left, right)))
            shift = sum(want[c] - p for c, p in zip(row, at)) / len(row)
            x.update({c: p + shift for c, p in zip(row, at)})
    least = min(x[c] for c in floor)
    return {c: round(x[c] - least, 2) for c in near}


def picture():
    crates = read_crates()
    unknown = set(crates) - set(WORDS)
    if unknown:
        sys.exit(f"layers.py: give {', '.join(sorted(unknown))} a few words in WORDS")
    floor, lines = floors(crates), arrows(crates)
    chains = ways(lines, floor)
    x = places(floor, chains)
    top = max(floor.values())
    left = {c: 24 + x[c] * ACROSS for c in crates}
    upper = {c: TOP + (top - floor[c]) * UP for c in crates}
    width = int(24 + max(x.values()) * ACROSS + WIDTH + 24)
    height = TOP + top * UP + 36
    out = [
        f'<svg xmlns="http://www.w3.org/2000/svg" width="{width}" height="{height}" viewBox="0 0 {width} {height}" '
        'font-family="DejaVu Sans, Helvetica, Arial, sans-serif">',
        "<title>The crates of Cablesalak, lowest layer at the bottom</title>",
        "<defs>" + "".join(
            f'<marker id="{i}" viewBox="0 0 8 8" refX="7" refY="4" markerWidth="7" markerHeight="7" orient="auto">'
            f'<path d="M 0 0 L 8 4 L 0 8 Z" fill="{colour}"/></marker>' for i, colour in (("solid", SOLID), ("dashed", DASHED))) + "</defs>",
        f'<rect width="{width}" height="{height}" fill="#ffffff"/>',
        '<text x="24" y="36" font-size="18" font-weight="bold" fill="#1a1a1a">The crates, lowest layer at the bottom</text>',
    ]
    for a, b in lines:
        kind, colour, dash = ("solid", SOLID, "") if b in code_names(a) else ("dashed", DASHED, ' stroke-dasharray="6 4"')
        bends = [(24 + x[p] * ACROSS + WIDTH / 2, TOP + (top - p[2]) * UP) for p in chains[a, b][1:-1]]
        first, last = left[a] + WIDTH / 2, left[b] + WIDTH / 2
        out_of = max(-60.0, min(60.0, ((bends or [(last, 0)])[0][0] - first) * 0.4))
        into = max(-60.0, min(60.0, ((bends or [(first, 0)])[-1][0] - last) * 0.4))
        points = [(first + out_of, upper[a] + HEIGHT)]
        for bx, by in bends:
            points += [(bx, by), (bx, by + HEIGHT)]
        points.append((last + into, upper[b]))
        path = " ".join(f"{px:.0f},{py:.0f}" for px, py in points)
        out.append(f'<polyline points="{path}" fill="none" stroke="{colour}" stroke-width="1.4"{dash} stroke-linejoin="round" marker-end="url(#{kind})"/>')
    for c in crates:
        code = any(re.search(r"^\s*(pub )?(extern \"C\" )?fn ", p.read_text(), re.M) for p in Path("crates", c, "src").glob("**/*.rt"))
        fill, edge = ("#e2f2e3", "#2e7d32") if c in OPEN else ("#e7effb", "#2f5b94") if code else ("#fff3d6", "#a8780a")
        out += [
            f'<rect x="{left[c]:.0f}" y="{upper[c]}" width="{WIDTH}" height="{HEIGHT}" rx="6" fill="{fill}" stroke="{edge}" stroke-width="1.4"/>',
            f'<text x="{left[c] + WIDTH / 2:.0f}" y="{upper[c] + 18}" font-size="14" font-weight="bold" text-anchor="middle">{c}</text>',
            f'<text x="{left[c] + WIDTH / 2:.0f}" y="{upper[c] + 35}" font-size="11" fill="#333333" text-anchor="middle">{WORDS[c]}</text>',
        ]
    # The legend stands beside the title, above the highest crate.
    at = 470
    for fill, edge, words in (("#e2f2e3", "#2e7d32", "open to others"), ("#e7effb", "#2f5b94", "inner"), ("#fff3d6", "#a8780a", "no code: definitions, theorems")):
        out.append(f'<rect x="{at}" y="24" width="24" height="14" rx="3" fill="{fill}" stroke="{edge}"/><text x="{at + 32}" y="35" font-size="12">{words}</text>')
        at += 60 + 7 * len(words)
    for colour, dash, words in ((SOLID, "", "its code depends on it"), (DASHED, ' stroke-dasharray="6 4"', "only its contracts and proofs do")):
        out.append(f'<line x1="{at}" y1="31" x2="{at + 26}" y2="31" stroke="{colour}" stroke-width="1.4"{dash}/><text x="{at + 34}" y="35" font-size="12">{words}</text>')
        at += 60 + 7 * len(words)
    out.append("</svg>\n")
    return "\n".join(out)


drawn, path = picture(), Path("docs/layers.svg")
if "--check" in sys.argv[1:]:
    if not path.exists() or path.read_text() != drawn:
        sys.exit("layers.py: docs/layers.svg is not what crates.txt and the files say; run tools/layers.py")
else:
    path.write_text(drawn)
