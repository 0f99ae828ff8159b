#!/usr/bin/env python3
"""Times the check of one or more trees without proving them: to see what an idea is worth before it is proved. It proves nothing.

    tools/speed.py [--keep FOLDER] TREE [TREE ..]       TREE: a checkout, or any folder with crates/ and crates.txt

--keep leaves the inputs and the programs, FOLDER/0/program and so on, for `valgrind --tool=callgrind PROGRAM FORMULA PROOF TIMES PLACES [1]`
(1: a DRAT text), which counts instructions where the machine is too busy to be timed.

Each tree's crates are compiled at -O3 with tools/speed_main.txt by the tool behind `rt try`. Prints, for each check that `rust/run bench` times and
for the DRAT texts of examples/drat, the number that each tree's check says and the least processor milliseconds of several runs, the trees taken in
turns. About 3 seconds a tree to build.
"""
import contextlib, glob, os, re, resource, shutil, subprocess, sys, tempfile

ROOT = os.path.dirname(os.path.dirname(os.path.abspath(__file__)))
KIT = os.path.dirname(os.path.dirname(os.path.realpath(shutil.which("rt"))))
OWN = KIT + "/on/x86_64"
TURNS = 7

# A clang that keeps the -O3 object: `rattle-cases` itself only runs what it compiles.
CLANG = """#!/bin/sh
"%s/toolchain/bin/clang" "$@" || exit
case " $* " in *" -O3 "*) cp module.o "%s" ;; esac
"""


def reached(tree, crate):
    """The crates that a crate stands on, itself among them."""
    under = dict(re.findall(r"^(\w+):(.*)$", open(tree + "/crates.txt").read(), re.M))
    seen, work = [], [crate]
    while work:
        c = work.pop()
        if c in under and c not in seen:
            seen.append(c)
            work += under[c].split()
    return seen


def build(tree, folder):
    """The program of a tree: the file's name."""
    tools, kept, program, main = folder + "/tools", folder + "/kept.o", folder + "/program", folder + "/main.rt"
    os.makedirs(tools + "/bin")
    # It is no .rt file in the repository: `rt ci` takes none outside the crates.
    shutil.copy(ROOT + "/tools/speed_main.txt", main)
    os.symlink(OWN + "/toolchain/lib", tools + "/lib")
    for name in ("ld.lld", "llvm-ar"):
        os.symlink(OWN + "/toolchain/bin/" + name, tools + "/bin/" + name)
    with open(tools + "/bin/clang", "w") as f:
        f.write(CLANG % (OWN, kept))
    os.chmod(tools + "/bin/clang", 0o755)
    libs = [(c, "%s/crates/%s/src/lib.rt" % (tree, c)) for c in reached(tree, "checker")]
    libs += [(c, "%s/libs/%s/src/lib.rt" % (KIT, c)) for c in ("std", "libc", "os", "io")]
    words = [w for c, f in libs for w in ("--lib", c + "=" + f)]
    said = subprocess.run([OWN + "/bin/rattle-cases", "--toolchain", tools, "--link", KIT + "/lib/libos_c.a", main, "--crate-name",
                           "timed"] + words, capture_output=True, text=True)
    if not os.path.exists(kept):
        sys.exit("%s: %s" % (tree, (said.stdout + said.stderr)[-2000:]))
    subprocess.run([OWN + "/bin/rattle-link", "--target", "x86_64-unknown-linux-gnu", "--toolchain", OWN + "/toolchain", "-o", program, kept,
                    KIT + "/lib/libos_c.a"], check=True, stderr=subprocess.DEVNULL)
    return program


def inputs(folder):
    """The checks: a name, and the program's arguments but for how often."""
    for cnf in sorted(glob.glob(folder + "/*.cnf")):
        yield os.path.basename(cnf)[:-4], (cnf, cnf[:-4] + ".proof"), (open(cnf[:-4] + ".places").read(),)
    for text in sorted(glob.glob(ROOT + "/examples/drat/*.drat")):
        cnf = text[:-5] + ".cnf"
        cnf = cnf if os.path.exists(cnf) else text.rsplit("-", 1)[0] + ".cnf"
        yield "DRAT text, " + os.path.basename(text)[:-5], (cnf, text), ("4096", "1")


def spent(program, files, times, rest):
    """What the program says, and its processor milliseconds a check."""
    free = lambda: resource.setrlimit(resource.RLIMIT_STACK, (resource.RLIM_INFINITY, resource.RLIM_INFINITY))
    before = resource.getrusage(resource.RUSAGE_CHILDREN)
    said = subprocess.run([program, *files, str(times), *rest], capture_output=True, text=True, preexec_fn=free).stdout
    after = resource.getrusage(resource.RUSAGE_CHILDREN)
    return said, (after.ru_utime + after.ru_stime - before.ru_utime - before.ru_stime) * 1000 / times


def main():
    trees, keep = sys.argv[1:], None
    if trees[:1] == ["--keep"]:
        keep, trees = os.path.abspath(trees[1]), trees[2:]
    if not trees:
        sys.exit(__doc__)
    with contextlib.nullcontext(keep) if keep else tempfile.TemporaryDirectory() as folder:
        os.makedirs(folder, exist_ok=True)
        subprocess.run(["cargo", "build", "--quiet", "--offline", "--manifest-path", ROOT + "/rust/Cargo.toml", "--profile", "timed", "-p", "bench"], check=True)
        subprocess.run([ROOT + "/rust/target/timed/bench", "--write", folder], check=True)
        programs = []
        for k, tree in enumerate(trees):
            os.makedirs("%s/%d" % (folder, k))
            programs.append(build(os.path.abspath(tree), "%s/%d" % (folder, k)))
        for name, files, rest in inputs(folder):
            slow = max(spent(p, files, 1, rest)[1] for p in programs)
            times, turns = (1, 3) if slow > 500 else (5, TURNS)
            least = [[spent(p, files, times, rest) for p in programs] for _ in range(turns)]
            columns = ["%s %8.1f" % (column[0][0], min(ms for _, ms in column)) for column in zip(*least)]
            print("%-64s %s" % (name, "   ".join(columns)), flush=True)


main()
