#!/usr/bin/env python3
"""batch_speed.py [TURNS]: the processor time of refute-all compared with that of bare threads; builds both first.

Two folders of pairs are made: 2,100 from examples/drat and 20,000 from the small pairs of examples, each with a comment of its own. In turns
(7 by default) the measure (rust/batch/examples/plain.rs: threads that read the two files and check them, and nothing else) and `refute-all -q -o` run
over them. Printed are the least and the median of user and system time of all their processes, the share, and the most memory of a worker; at last the
two shares beside what they must be: 95 % and 85 % on a quiet machine. The status is 1 where one of them is not reached.
"""
import os
import re
import resource
import statistics
import subprocess
import sys
import tempfile
import time
from pathlib import Path

ROOT = Path(__file__).resolve().parent.parent
BUILT = ROOT / "rust/target/release"
WANTED = {"solvers": 0.95, "small": 0.85}
SMALL = ["case-a case-a.proof", "papers papers.proof", "papers papers-short.proof", "two-bands two-bands.proof",
         "two-bands two-bands-short.proof", "two-bands two-bands.drat"]
SOLVERS = ["parities parities-cadical.drat", "pigeons pigeons-cadical.drat", "pigeons pigeons-cryptominisat.drat",
           "pigeons-extended pigeons-extended.drat", "rota rota-cadical.drat", "rota rota-cryptominisat.drat", "three-sat three-sat-cadical.drat"]


def make(folder, source, names, count):
    """So many pairs, 500 in a folder, each with a comment of its own."""
    for k in range(count):
        formula, proof = names[k % len(names)].split()
        into = folder / f"{k // 500:03}"
        into.mkdir(parents=True, exist_ok=True)
        comment = f"c pair {k}\n".encode()
        (into / f"{k:05}.cnf").write_bytes(comment + (source / f"{formula}.cnf").read_bytes())
        first = comment if proof.endswith(".drat") else b""
        (into / f"{k:05}{Path(proof).suffix}").write_bytes(first + (source / proof).read_bytes())


def processor_time(command):
    before = resource.getrusage(resource.RUSAGE_CHILDREN)
    subprocess.run(command, stdout=subprocess.DEVNULL, stderr=subprocess.DEVNULL, check=True)
    after = resource.getrusage(resource.RUSAGE_CHILDREN)
    return after.ru_utime + after.ru_stime - before.ru_utime - before.ru_stime


def memory(folder):
    """The most KiB that a worker takes."""
    pool, most = subprocess.Popen([BUILT / "refute-all", "-q", folder]), 0
    while pool.poll() is None:
        try:
            workers = Path(f"/proc/{pool.pid}/task/{pool.pid}/children").read_text().split()
            found = [re.search(r"VmHWM:\s*(\d+)", Path(f"/proc/{worker}/status").read_text()) for worker in workers]
            most = max([most] + [int(one[1]) for one in found if one])
        except OSError:
            pass
        time.sleep(0.02)
    return most


def compare(folder, turns):
    plain, batch = [], []
    for _ in range(turns):
        plain.append(processor_time([BUILT / "examples/plain", folder]))
        results = folder.parent / "results.jsonl"
        results.unlink(missing_ok=True)
        batch.append(processor_time([BUILT / "refute-all", "-q", "-o", results, folder]))
    for name, of in [("least", min), ("median", statistics.median)]:
        print(f"  {name}: threads {of(plain):.3f} s, refute-all {of(batch):.3f} s, share {of(plain) / of(batch):.1%}")
    print(f"  memory of a worker: {memory(folder)} KiB", flush=True)
    return min(plain) / min(batch)


def build():
    """Both programs, over the archives of this checkout."""
    subprocess.run([ROOT / "rust/run", "batch"], check=True)
    words = ["cargo", "build", "--quiet", "--offline", "--release", "--manifest-path", ROOT / "rust/Cargo.toml", "-p", "batch"]
    subprocess.run(words + ["--bins", "--examples"], check=True)


def main():
    turns = int(sys.argv[1]) if len(sys.argv) > 1 else 7
    build()
    shares = {}
    with tempfile.TemporaryDirectory() as work:
        for name, source, names, count in [("solvers", "drat", SOLVERS, 2_100), ("small", ".", SMALL, 20_000)]:
            folder = Path(work) / name
            make(folder, ROOT / "examples" / source, names, count)
            print(f"{count} pairs ({name}), {turns} turns, load {os.getloadavg()[0]:.1f}", flush=True)
            shares[name] = compare(folder, turns)
    for name, share in shares.items():
        print(f"{name}: {share:.1%} of the threads', wanted {WANTED[name]:.0%}")
    sys.exit(any(share < WANTED[name] for name, share in shares.items()))


main()
