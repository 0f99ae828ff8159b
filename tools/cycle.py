#!/usr/bin/env python3
"""cycle.py split|join CRATE CYCLE: the proof of functions that call each other as one file a function, or as one file. CYCLE: a folder
under proofs/, as +apply+descend+join. Run it at the repository's root; then `rt fmt`.

    split   proofs/CYCLE/Proof.antt keeps the statement; Proof/Measures.antt has what falls and what each function may assume of its calls,
            Proof/F.antt the ways back and the answers of the function F, whose names lose their `F-`
    join    the way back, so that carry.sh finds all answers in one file
"""
import os, re, sys

BEGIN = "-- The ways back, written by ways.py: TO-from-FROM leads from the place FROM of the code to the place TO before it."
WORD = r"[^\s(){}\[\],;.\"]+"


def whole(name):
    """A name as a word of its own."""
    return r"(?<![\w·'+-])%s(?![\w'-])" % re.escape(name)


def blocks_of(text):
    out, cur = [], []
    for line in text.split("\n"):
        top = line and not line[0].isspace() and not line.startswith((")", "--"))
        if top and (re.match(r"(abbrev |unfoldable |pub |module |record |data )", line) or re.match(r"%s :( |$)" % WORD, line)):
            if any(l and not l.startswith("--") for l in cur):
                k = len(cur)
                while k and (not cur[k - 1] or cur[k - 1].startswith("--")):
                    k -= 1
                out.append(cur[:k])
                cur = cur[k:]
        cur.append(line)
    out.append(cur)
    return ["\n".join(b).strip("\n") for b in out if any(b)]


def parts_of(path):
    """A file as its first comment, its imports and its blocks."""
    lines = open(path).read().split("\n")
    k = 0
    while lines[k].startswith("--"):
        k += 1
    head, uses = lines[:k], []
    while lines[k].startswith("use ") or not lines[k]:
        if lines[k]:
            uses.append(lines[k])
        k += 1
    return head, uses, blocks_of("\n".join(lines[k:]))


def wanted(use, text):
    """The import with the names that the text has, or nothing."""
    m = re.match(r"use (\S+)\.\{(.*)\}$", use)
    if m:
        names = [n.strip() for n in m.group(2).split(",")]
        keep = [n for n in names if (n in text or re.search(r"\s%s\s" % re.escape(n.strip("_")), text) if n.startswith("_") else re.search(whole(n), text))]
        return "use %s.{%s}" % (m.group(1), ", ".join(keep)) if keep else None
    alias = re.match(r"use \S+ as (\S+)$", use)
    return use if alias and re.search(r"(?<![\w-])%s\." % re.escape(alias.group(1)), text) else None


def is_ways(block):
    names = re.findall(r"^  abbrev (\S+) :", block, re.M)
    return bool(names) and all("-from-" in n for n in names)


def with_begin(blocks):
    """The blocks with the heading of ways.py's section before its first one alone."""
    blocks = [b.replace(BEGIN + "\n", "") for b in blocks]
    first = next((k for k, b in enumerate(blocks) if is_ways(b)), None)
    return [BEGIN + "\n" + b if k == first else b for k, b in enumerate(blocks)]


def module_of(function):
    return "".join(w.capitalize() for w in function.split("-"))


def write(path, head, uses, blocks):
    open(path, "w").write("\n".join(head + uses) + "\n\n" + "\n\n".join(blocks) + "\n")


def split(crate, cycle):
    folder = "crates/%s/proofs/%s" % (crate, cycle)
    module = "Rattle·%s·proofs.proofs.%s" % (crate, cycle.replace("/", "."))
    head, uses, blocks = parts_of(folder + "/Proof.antt")
    functions = [m.group(1).replace("_", "-") for u in uses for m in [re.match(r"use \S+\.Lts-(\S+) as ", u)] if m]
    last = blocks.pop()
    shared, own = [], {f: [] for f in functions}
    for b in blocks:
        of = [f for f in functions if re.search(r"(?<![\w-])%s-lts\." % re.escape(f), b)]
        if len(of) == 1 and "-lts.Claims" not in b:
            own[of[0]].append(b)
        else:
            shared.append(re.sub(r"^abbrev (?=μ-|\S+-(?:at|callees) :)", "abbrev pub ", b, flags=re.M))
    os.makedirs(folder + "/Proof", exist_ok=True)
    names = re.findall(r"^abbrev pub (\S+) :", "\n".join(shared), re.M)
    told = ", ".join("`%s`" % f.replace("-", "_") for f in functions[:-1]) + " and `%s`" % functions[-1].replace("-", "_")
    text = "\n".join(shared)
    write(folder + "/Proof/Measures.antt", ["-- What falls in the calls of %s, and what the proof of each may assume of its calls. Assumes nothing." % told],
          [u for u in (wanted(u, text) for u in uses) if u], shared)
    for f in functions:
        answers = [a for a in re.findall(r"\((%s-\S+) t\)" % re.escape(f), last) if a[len(f) + 1:] not in ("at", "below", "callees")]
        text = "\n\n".join(with_begin(own[f]))
        for a in sorted(answers, key=len, reverse=True):
            text = re.sub(whole(a), a[len(f) + 1:], text)
        text = re.sub(r"-from-%s-" % re.escape(f), "-from-", text)
        met = "pub %s-met : {M : Type 1} (t : ℕ) → %s-lts.Closed (%s-callees t) (%s-at t) %s.Post M\n" % ((f,) * 5)
        met += "%s-met t =\n    %s-lts.spec (%s-callees t) (%s-at t) %s.Post\n" % ((f,) * 5)
        met += "\n".join("    (%s t)" % a[len(f) + 1:] for a in answers)
        text += "\n\n" + met
        us = [u for u in (wanted(u, text) for u in uses) if u]
        us.append("use %s.Proof.Measures.{%s}" % (module, ", ".join(n for n in names if re.search(whole(n), text))))
        write(folder + "/Proof/%s.antt" % module_of(f), ["-- What `%s` needs, a law for each place of its code. Assumes nothing." % f.replace("-", "_")], us, [text])
    mus = [n for n in names if n.startswith("μ-")]
    spec = re.search(r"^pub (\S+) :", last, re.M).group(1)
    us = ["use %s.Proof.Measures.{%s}" % (module, ", ".join(mus))]
    us += ["use %s.Proof.%s.{%s-met}" % (module, module_of(f), f) for f in functions]
    us += [u for u in uses if u.startswith("use %s." % module) and (".{statement}" in u or ".Tie." in u)]
    mods = "\n".join("mod " + m for m in ["Measures"] + [module_of(f) for f in functions])
    write(folder + "/Proof.antt", head, us, [mods, "pub %s : {M : Type 1} → statement M\n%s = close %s %s" % (spec, spec, " ".join(mus), " ".join(f + "-met" for f in functions))])


def join(crate, cycle):
    folder = "crates/%s/proofs/%s" % (crate, cycle)
    head, uses, blocks = parts_of(folder + "/Proof.antt")
    spec = re.search(r"^pub (\S+) :", blocks[-1], re.M).group(1)
    _, all_uses, shared = parts_of(folder + "/Proof/Measures.antt")
    mus = [m for b in shared for m in re.findall(r"^abbrev pub (μ-\S+) :", b, re.M)]
    body, ways, closing = [re.sub(r"^abbrev pub ", "abbrev ", b, flags=re.M) for b in shared], [], []
    for f in re.findall(r"\{(\S+)-met\}", "\n".join(uses)):
        _, us, bs = parts_of(folder + "/Proof/%s.antt" % module_of(f))
        all_uses += [u for u in us if ".Proof.Measures." not in u]
        met, text = bs[-1], "\n\n".join(bs[:-1])
        answers = re.findall(r"^    \((\S+) t\)$", met, re.M)
        for a in sorted(answers, key=len, reverse=True):
            text = re.sub(r"(?m)^%s(?= )" % re.escape(a), "%s-%s" % (f, a), text)
        of = blocks_of(re.sub(r"-from-(?=%s)" % WORD, "-from-%s-" % f, text.replace(BEGIN + "\n", "")))
        ways += [b for b in of if is_ways(b)]
        body += [b for b in of if not is_ways(b)]
        closing.append("(λ t. %s-lts.spec (%s-callees t) (%s-at t) %s.Post\n%s)" % (f, f, f, f, "\n".join("    (%s-%s t)" % (f, a) for a in answers)))
    grouped = {}
    for u in all_uses:
        m = re.match(r"use (\S+)\.\{(.*)\}$", u)
        grouped.setdefault(m.group(1) if m else u, []).extend(n.strip() for n in m.group(2).split(",")) if m else grouped.setdefault(u, [])
    us = ["use %s.{%s}" % (k, ", ".join(dict.fromkeys(ns))) if ns else k for k, ns in grouped.items()]
    us += [u for u in uses if ".{statement}" in u or ".Tie." in u]
    for name in os.listdir(folder + "/Proof"):
        os.remove(folder + "/Proof/" + name)
    os.rmdir(folder + "/Proof")
    at = len(shared)
    write(folder + "/Proof.antt", head, us, body[:at] + with_begin(ways) + body[at:] + ["pub %s : {M : Type 1} → statement M\n%s = close %s\n    %s" % (spec, spec, " ".join(mus), "\n    ".join(closing))])


{"split": split, "join": join}[sys.argv[1]](*sys.argv[2:])
