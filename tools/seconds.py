#!/usr/bin/env python3
"""seconds.py COMMAND..: runs a command, such as `bin/test`, and then prints the processor seconds that the prover took for each crate.

Looks at the machine's processes twice a second: the prover's name and the crate it works on are in its command line. A crate proved more than once
(its must-fail edits) has the first check's seconds, then how many checks there were and their seconds together. README's table and `tools/gate.py`
stand on these figures. Run it with nothing else on the machine.
"""
import os
import re
import subprocess
import sys
import time

TICKS = os.sysconf("SC_CLK_TCK")


def provers():
    """Of each prover that runs: the process and when it began, its crate, its processor seconds."""
    for pid in filter(str.isdigit, os.listdir("/proc")):
        try:
            with open(f"/proc/{pid}/cmdline") as f:
                words = f.read().split("\0")
            with open(f"/proc/{pid}/stat") as f:
                stat = f.read().rpartition(")")[2].split()
        except OSError:
            continue
        if len(words) > 3 and re.search(r"/rattle$", words[0]) and "--crate-name" in words:
            yield (pid, stat[19]), words[words.index("--crate-name") + 1], (int(stat[11]) + int(stat[12])) / TICKS


def main():
    child = subprocess.Popen(sys.argv[1:])
    seen = {}
    while child.poll() is None:
        for process, crate, spent in provers():
            seen[process] = (crate, spent)
        time.sleep(0.5)
    checks = {}
    for crate, spent in seen.values():
        checks.setdefault(crate, []).append(spent)
    for crate, spent in checks.items():
        more = f"  {len(spent)} checks {sum(spent):.0f}" if len(spent) > 1 else ""
        print(f"{crate:16} {spent[0]:6.1f}{more}")
    print(f"together {sum(map(sum, checks.values())):.0f} processor seconds")
    sys.exit(child.returncode)


if __name__ == "__main__":
    main()
