#!/usr/bin/env python3
"""wrap.py [FILE ..]: breaks the lines of definitions and proofs that are over 140 columns. Run at the repository's root, then `rt fmt`.
wrap.py --check: ends with status 1 where a line is over 140 columns in src/ or specs/, or over 160 in proofs/, and names it.

Without files: crates/*/specs/**/*.antt and crates/*/proofs/**/*.antt. A line is broken between two words, as far out of its brackets as it can be,
before an infix operator that stands there, else between arguments; further lines are indented by four. A long import becomes several, a
long comment is wrapped, strings and comments behind code are left alone. A line that has nothing but `refl` for each row of a list of
rows may be of any length: `rt fmt` would put each row on a line of its own, deeper than the one before. --check also prints how many
`.before` there are.
"""
import glob
import re
import sys

WIDTH = 140
MOST = {"src": 140, "specs": 140, "proofs": 160}
BEFORE = {"∙", "×", "≡", "∧", "⊛", "++", "&&", "||"}          # the break comes before these
AFTER = {"→", "$", "in", "∷", ",", "="}                      # and after these
ROWS = re.compile(r"\s*(\S+ = )?\(*(refl|tt)([(), ]|refl|tt)*")  # nothing but `refl` for each row


def breaks(line, width):
    """(depth, preferred, column) of each blank at which the line may be broken."""
    start = len(line) - len(line.lstrip(" "))
    depth, quoted, found = 0, False, []
    for k in range(start, min(len(line), width + 1)):
        c = line[k]
        if c == '"':
            quoted = not quoted
        elif quoted:
            continue
        elif c in "({[":
            depth += 1
        elif c in ")}]":
            depth -= 1
        elif c == " " and k > start:
            left, right = line[start:k].split(" ")[-1], line[k + 1:].split(" ")[0]
            if right == "--":
                break
            if left not in BEFORE:
                found.append((depth, right in BEFORE or left in AFTER or left.endswith(","), k))
    return found


def wrapped(line, width):
    deeper = " " * (len(line) - len(line.lstrip(" ")) + 4)
    out = []
    while len(line) > width:
        found = [b for b in breaks(line, width) if b[2] > len(deeper) + 20]
        if not found:
            break
        late = [b for b in found if b[2] > width // 3] or found
        least = min(b[0] for b in late)
        best = [b for b in late if b[0] == least]
        good = [b for b in best if b[1] and b[2] > width // 2]
        at = max(good or best, key=lambda b: b[2])[2]
        out.append(line[:at])
        line = deeper + line[at + 1:]
    return out + [line]


def imports(line, width):
    """`use M.{a, b, c}` as several lines."""
    m = re.fullmatch(r"(\s*(?:pub )?use \S+\.)\{(.*)\}", line)
    if not m:
        return [line]
    out, names = [], []
    for name in m.group(2).split(", "):
        if names and len(m.group(1)) + len(", ".join(names + [name])) + 2 > width:
            out.append(m.group(1) + "{" + ", ".join(names) + "}")
            names = []
        names.append(name)
    return out + [m.group(1) + "{" + ", ".join(names) + "}"]


def comment(line, follows, width):
    """A comment line as several; what is over goes to the line that follows where that is of the same comment. Gives both."""
    mark = re.match(r"\s*-- ?", line).group(0)
    out, words = [], []
    for word in line[len(mark):].split(" "):
        if words and len(mark) + len(" ".join(words + [word])) > width:
            out.append(mark + " ".join(words))
            words = []
        words.append(word)
    if follows.startswith(mark) and re.match(r"[^\s-]", follows[len(mark):]):
        return out, mark + " ".join(words) + " " + follows[len(mark):]
    return out + [mark + " ".join(words)], follows


def wrap(name):
    lines = open(name, encoding="utf-8").read().split("\n")
    out, left = [], list(lines)
    while left:
        line = left.pop(0)
        if len(line) <= WIDTH or "written by ways.py" in line or ROWS.fullmatch(line):
            out.append(line)
        elif line.lstrip().startswith("--"):
            broken, follows = comment(line, left[0] if left else "", WIDTH)
            out += broken
            if left:
                left[0] = follows
        elif line.lstrip().startswith(("use ", "pub use ")):
            out += imports(line, WIDTH)
        else:
            out += wrapped(line, WIDTH)
    if out != lines:
        open(name, "w", encoding="utf-8").write("\n".join(out))
    return sum(len(l) > WIDTH for l in lines), sum(len(l) > WIDTH for l in out)


def check():
    bad = before = run = 0
    for kind, pattern in (("src", "crates/*/src/**/*.rt"), ("specs", "crates/*/specs/**/*.antt"), ("proofs", "crates/*/proofs/**/*.antt")):
        many = wide = longest = 0
        for name in sorted(glob.glob(pattern, recursive=True)):
            text = open(name, encoding="utf-8").read()
            before += text.count(".before")
            run = max([run] + [m.group(0).count(".before") for m in re.finditer(r"(?:\s*\.before)+", text)])
            for k, line in enumerate(text.split("\n"), 1):
                if ROWS.fullmatch(line):
                    continue
                many, wide, longest = many + 1, wide + (len(line) > WIDTH), max(longest, len(line))
                if len(line) > MOST[kind]:
                    bad += 1
                    print("%s:%d: %d columns, at most %d" % (name, k, len(line), MOST[kind]))
        print("%-7s lines %6d  over %d: %4d  longest %d" % (kind, many, WIDTH, wide, longest))
    print(".before %d, longest run %d" % (before, run))
    return bad > 0


def main():
    if "--check" in sys.argv:
        sys.exit(check())
    files = sys.argv[1:] or sorted(glob.glob("crates/*/specs/**/*.antt", recursive=True) + glob.glob("crates/*/proofs/**/*.antt", recursive=True))
    found = [wrap(name) for name in files]
    print("lines over %d: %d, after: %d" % (WIDTH, sum(f[0] for f in found), sum(f[1] for f in found)))


main()
