#!/usr/bin/env python3
"""The buddy rule: k sites cannot be staffed by 2k - 1 workers.

Usage: staffing.py SIZE FORMULA PROOF      (SIZE = k, the number of sites, 2 to 5)

x(s, w) says that worker w works at site s.  The rule book has three rules:

    staffed   each site has a worker
    buddy     nobody is alone at a site: who works at s has another worker at s
    one site  no worker works at two sites

The first two say that a site has at least two workers, so one is missing.  The proof:
  1. RUP, a cardinality diagram: site 1 has at least two workers.
  2. From the last site S down to site 3, the two greatest workers W left are given to S; from site 2
     only one is taken.  For a worker W:
       PR   not x(s, W) or not x(S, v), for s < S and v < W: if s has W and S has v, they change places;
       RUP  not x(s, W), for s < S.
  3. Sites 1 and 2 now have the workers 1, 2, 3, and 3 is not at site 1, which takes 1 and 2: RUP 0.
"""
import struct
import sys
from itertools import combinations
from pathlib import Path

FALSE, TRUE = 0, 1
NODE, MAKE_TRUE, MAKE_FALSE, RUP, PR, END = b"NTFRPE"


class Proof:
    """The bytes of a proof; `node` answers entries of the line that is being written."""

    def __init__(self):
        self.bytes = bytearray()
        self.entries = {}

    def node(self, variable, low, high):
        """The entry of "if variable then high else low"."""
        if low == high:
            return low
        record = struct.pack("<BBHH", NODE, variable, low, high)
        if record not in self.entries:
            self.bytes += record
            self.entries[record] = len(self.entries) + 2
        return self.entries[record]

    def clause(self, literals):
        root = FALSE
        for literal in sorted(literals, key=abs, reverse=True):
            low, high = (root, TRUE) if literal > 0 else (TRUE, root)
            root = self.node(abs(literal), low, high)
        return root

    def at_least(self, threshold, variables):
        """The entry of "at least `threshold` of `variables`", which are given in rising order."""
        if threshold == 0:
            return TRUE
        if threshold > len(variables):
            return FALSE
        first, *rest = variables
        return self.node(first, self.at_least(threshold, rest), self.at_least(threshold - 1, rest))

    def line(self, kind, root, witness=()):
        """Close the line: a RUP line, or a PR line with the literals of its witness."""
        for literal in witness:
            self.bytes += bytes([MAKE_TRUE if literal > 0 else MAKE_FALSE, abs(literal)])
        self.bytes += struct.pack("<BH", kind, root)
        self.entries.clear()


class Staffing:
    """The question for a number of sites, one worker short."""

    def __init__(self, sites):
        self.sites = range(1, sites + 1)
        self.workers = range(1, 2 * sites)

    def x(self, site, worker):
        return (site - 1) * len(self.workers) + worker

    def crew(self, site):
        """The variables of a site, in rising order."""
        return [self.x(site, worker) for worker in self.workers]

    def clauses(self):
        for site in self.sites:
            crew = self.crew(site)
            yield crew
            for member in crew:
                yield [-member] + [other for other in crew if other != member]
        for worker in self.workers:
            for one, other in combinations(self.sites, 2):
                yield [-self.x(one, worker), -self.x(other, worker)]

    def formula(self):
        lines = [" ".join(map(str, clause + [0])) for clause in self.clauses()]
        return "\n".join([f"p cnf {len(self.sites) * len(self.workers)} {len(lines)}", *lines, ""])

    def assign(self, proof, site, worker):
        """Lines after which `worker`, the greatest one left, is at no site before `site`."""
        x = self.x
        for other in range(1, site):
            for mate in range(1, worker):
                change = [x(other, mate), -x(other, worker), x(site, worker), -x(site, mate)]
                proof.line(PR, proof.clause([-x(other, worker), -x(site, mate)]), change)
        for other in range(1, site):
            proof.line(RUP, proof.clause([-x(other, worker)]))

    def refutation(self):
        proof = Proof()
        proof.line(RUP, proof.at_least(2, self.crew(1)))
        for site in reversed(self.sites[2:]):
            self.assign(proof, site, 2 * site - 1)
            self.assign(proof, site, 2 * site - 2)
        self.assign(proof, 2, 3)
        proof.line(RUP, FALSE)
        return bytes(proof.bytes) + bytes([END])


def main(size, formula, proof):
    if size not in ("2", "3", "4", "5"):
        sys.exit("SIZE must be 2 to 5: the format has at most 64 variables")
    staffing = Staffing(int(size))
    Path(formula).write_text(staffing.formula())
    Path(proof).write_bytes(staffing.refutation())


if __name__ == "__main__":
    main(*sys.argv[1:])
