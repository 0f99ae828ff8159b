#!/usr/bin/env python3
"""walk.py lift FILE: a hand walk (`qed W .. ∵ ..`) with names in place of positions.  walk.py lower FILE: the positions again.

What a walk has at hand is a list, and its steps name places of that list by number: a parameter more moves nearly all of them. `lift` follows
the list through the steps and writes ‹name› for each number, and ‹= name ..› behind each step that makes something. Edit that (new steps, new
names), then `lower` counts. To standard output; `lower` of `lift` is the file itself.
"""
import re
import sys

MAKES = {"split": 2, "fsplit": 2, "split3": 3, "fsplit3": 3}
PLACES = r"(?:init|look|look-in|look-raw|store|store-raw|forget|rewrite)"
STEP = re.compile(
    r"(?P<alloc>alloc1) ! \(λ (?P<local>\S+)\."
    r"|(?P<move>move|keep) ! \((?P<list>[^()]*?)∷ \[\]\)"
    r"|(?P<place>" + PLACES + r") ! (?P<at>‹[^›]*›|\d+)"
    r"|(?P<group>group) ! (?P<many>\d+)"
    r"|(?P<use>use[0-3]) W"
    r"|(?P<plain>split3|split|fsplit3|fsplit|join|fjoin|nothing|owned|heard|feqL|frame|drop|free1|calls-at|done|by) !"
)
NAMES = re.compile(r" ‹= ([^›]*)›")


def listed(text, start):
    """How many items the list behind `qed W` has: written out, or the name of an abbreviation of the file; and where it ends."""
    if text[start] == "(":
        depth, at = 0, start
        while True:
            depth += {"(": 1, ")": -1}.get(text[at], 0)
            at += 1
            if depth == 0:
                break
        body = text[start + 1 : at - 1]
    else:
        at = re.compile(r"\S+").match(text, start).end()
        body = text[start:at]
    if "∷" not in body:
        name = body.split()[0]
        found = re.search(r"^ *" + re.escape(name) + r"(?: [^=\n]*)? =\s(.*?)(?=\n\s*\n|\n\S)", text, re.M | re.S)
        body = found[1]
    depth = count = 0
    for c in body:
        depth += {"(": 1, ")": -1}.get(c, 0)
        count += c == "∷" and depth == 0
    return count, at


def follow(text, lift):
    out, at, fresh = [], 0, [0]

    def new(stem="x"):
        fresh[0] += 1
        return f"{stem}{fresh[0]}"

    while True:
        begin = text.find("qed W ", at)
        if begin < 0:
            out.append(text[at:])
            return "".join(out)
        count, end = listed(text, begin + 6)
        sign = text.index("∵", end) + 1
        out.append(text[at:sign])
        at = sign

        def names(many, stem="x", given=None):
            """The names of what a step makes: those written behind it, else new ones; in a lift they are written."""
            nonlocal at
            told = NAMES.match(text, at)
            if told:
                at = told.end()
                made = told[1].split()
                if len(made) != many:
                    sys.exit(f"walk.py: {many} things are made, not {told[0]}")
            else:
                made = given or [new(stem) for _ in range(many)]
            if lift:
                out.append(f" ‹= {' '.join(made)}›")
            return made

        here = names(count, "i")
        while True:
            step = STEP.search(text, at)
            if not step:
                sys.exit("walk.py: a walk without an end")
            out.append(text[at : step.start()])
            at = step.end()

            def place(word):
                if lift:
                    return f"‹{here[int(word)]}›"
                name = word[1:-1]
                if name not in here:
                    sys.exit(f"walk.py: {name} is not at hand: {' '.join(here)}")
                return str(here.index(name))

            kind = step["plain"] or step["use"]
            if step["alloc"]:
                out.append(step[0])
                here = [step["local"], step["local"] + "′"] + here
            elif step["move"]:
                words = [w.strip() for w in step["list"].split("∷") if w.strip()]
                numbers = [int(w) if lift else int(place(w)) for w in words]
                out.append(f"{step['move']} ! ({' ∷ '.join(place(w) for w in words)} ∷ [])")
                front = [here[i] for i in numbers]
                here = front + ([] if step["move"] == "keep" else [x for i, x in enumerate(here) if i not in numbers])
            elif step["place"]:
                out.append(f"{step['place']} ! {place(step['at'])}")
            elif step["group"]:
                out.append(step[0])
                here = names(1) + here[int(step["many"]) :]
            elif step["use"]:
                out.append(step[0])
                here = names(1) + here[int(kind[3]) :]
            else:
                out.append(step[0])
                if kind in MAKES:
                    here = names(MAKES[kind]) + here[1:]
                elif kind in ("join", "fjoin"):
                    here = names(1) + here[2:]
                elif kind in ("nothing", "owned"):
                    here = names(1) + here
                elif kind == "calls-at":
                    here = names(1) + here[1:]
                elif kind == "free1":
                    here = here[2:]
                elif kind in ("heard", "feqL", "frame", "drop"):
                    here = here[1:]
                else:
                    break


what, path = sys.argv[1:3]
sys.stdout.write(follow(open(path).read(), what == "lift"))
