#!/usr/bin/env python3
"""examples/drat/formulas.py FOLDER: writes the formulas of this folder and the one proof that no solver wrote.

The other proofs are the solvers' own; README.md has the commands."""
import itertools
import os
import random
import sys


def pigeons(count):
    """Each of so many pigeons has one of the holes, one fewer than they are, and no hole has two."""
    holes = count - 1
    at = lambda pigeon, hole: pigeon * holes + hole + 1
    clauses = [[at(pigeon, hole) for hole in range(holes)] for pigeon in range(count)]
    for hole in range(holes):
        clauses += [[-at(i, hole), -at(k, hole)] for i, k in itertools.combinations(range(count), 2)]
    return count * holes, clauses


def parities(seed, vertices):
    """A cubic graph, a variable for each edge: at the first vertex an odd number of its edges is true, at each other one an even one."""
    dice = random.Random(seed)
    while True:
        ends = [vertex for vertex in range(vertices) for _ in range(3)]
        dice.shuffle(ends)
        edges = [tuple(sorted(ends[at:at + 2])) for at in range(0, len(ends), 2)]
        if len(set(edges)) == len(edges) and all(a != b for a, b in edges):
            break
    clauses = []
    for vertex in range(vertices):
        touching = [number + 1 for number, edge in enumerate(edges) if vertex in edge]
        for signs in itertools.product([0, 1], repeat=3):
            if sum(signs) % 2 != (vertex == 0):
                clauses.append([-variable if sign else variable for variable, sign in zip(touching, signs)])
    return len(edges), clauses


def three_sat(seed, variables, count):
    dice = random.Random(seed)
    literal = lambda variable: variable if dice.random() < .5 else -variable
    return variables, [[literal(v) for v in dice.sample(range(1, variables + 1), 3)] for _ in range(count)]


def rota(days, workers, need):
    """Each day needs so many of the workers, and nobody works on two days running."""
    at = lambda worker, day: worker * days + day + 1
    clauses = []
    for day in range(days):
        clauses += [[at(w, day) for w in some] for some in itertools.combinations(range(workers), workers - need + 1)]
    clauses += [[-at(w, day), -at(w, day + 1)] for w in range(workers) for day in range(days - 1)]
    return days * workers, clauses


def extended(count):
    """Pigeons with variables to spare, and Cook's proof: a stage defines the places of one pigeon fewer in one hole fewer. The pigeon that
    goes leaves its hole to the one that sat in the last hole. The definitions are RAT on their first literals, and most are not RUP."""
    variables, clauses = pigeons(count)
    proof, live, first = [], list(clauses), 1
    for m in range(count, 2, -1):
        n = m - 1
        p = lambda pigeon, hole: first + pigeon * n + hole
        q = lambda pigeon, hole: variables + 1 + pigeon * (n - 1) + hole
        smaller, defined = [], []
        for i, j in itertools.product(range(n), range(n - 1)):
            new, sits, last, gone = q(i, j), p(i, j), p(i, n - 1), p(n, j)
            defined += [[-new, sits, last], [-new, sits, gone], [new, -sits], [new, -last, -gone]]
        proof += defined
        smaller += [[q(i, j) for j in range(n - 1)] for i in range(n)]
        proof += smaller
        for j in range(n - 1):
            for i, k in itertools.combinations(range(n), 2):
                step, pair = [-q(i, j), -q(k, j), p(i, j)], [-q(i, j), -q(k, j)]
                proof += [step, pair, ["d"] + step]
                smaller.append(pair)
        proof += [["d"] + clause for clause in live + defined]
        live, first, variables = smaller, variables + 1, variables + n * (n - 1)
    return (variables, clauses), proof + [[]]


def text(clauses):
    return "".join(" ".join(map(str, clause + [0])) + "\n" for clause in clauses)


def main():
    if len(sys.argv) != 2:
        sys.exit(__doc__)
    cook, proof = extended(5)
    formulas = {
        "pigeons": pigeons(5),
        "parities": parities(1, 14),
        "three-sat": three_sat(1, 64, 295),
        "rota": rota(7, 7, 4),
        "pigeons-extended": cook,
    }
    files = {f"{name}.cnf": f"p cnf {variables} {len(clauses)}\n{text(clauses)}" for name, (variables, clauses) in formulas.items()}
    files["pigeons-extended.drat"] = text(proof)
    for name, content in files.items():
        with open(os.path.join(sys.argv[1], name), "w", encoding="ascii") as file:
            file.write(content)


if __name__ == "__main__":
    main()
