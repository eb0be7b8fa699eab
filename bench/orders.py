#!/usr/bin/env python3
"""Runs the same systems with their rows in several orders, and prints the table of docs/ORDER-OF-ROWS.md.

    python3 bench/orders.py --bin DIR [--only WORD] [--timeout S] [--seconds] [--check PAGE]

DIR has the programs graver, hilbert and zsolve. Pairs and solutions are the same in every run and on every machine. With
`--seconds` there is a column of user and system seconds of one worker, which are those of this run. With `--check` the status is 1
where the page lacks a line that is printed.
"""
import argparse
import itertools
import os
import sys
import tempfile

from compare import measure


def sums(rows, columns):
    """The row sums and the column sums of tables, each as a list of rows of the matrix."""
    cells = [(i, j) for i in range(rows) for j in range(columns)]
    across = [[int(i == r) for i, _ in cells] for r in range(rows)]
    down = [[int(j == c) for _, j in cells] for c in range(columns)]
    return across, down


def magic(order):
    """Rows, columns and diagonals of a square, each less the first row."""
    cells = [(i, j) for i in range(order) for j in range(order)]
    less = lambda inside: [int(i == 0) - int(inside(i, j)) for i, j in cells]
    rows = [less(lambda i, j, r=r: i == r) for r in range(1, order)]
    columns = [less(lambda i, j, c=c: j == c) for c in range(order)]
    diagonals = [less(lambda i, j: i == j), less(lambda i, j: i + j == order - 1)]
    return rows, columns, diagonals


def tables(columns):
    across, down = sums(3, columns)
    mixed = [row for pair in itertools.zip_longest(down, across) for row in pair if row]
    for order, rows in (("the 3 row sums first", across + down), ("in turn", mixed), ("the column sums first", down + across)):
        yield f"tables, 3 x {columns}", "graver", order, {"mat": rows}


def squares(order):
    rows, columns, diagonals = magic(order)
    for name, chosen in (("rows, columns, diagonals", rows + columns + diagonals),
                         ("diagonals, columns, rows", diagonals + columns + rows),
                         ("columns, diagonals, rows", columns + diagonals + rows)):
        yield f"magic squares of order {order}", "hilbert", name, {"mat": chosen}


def drawn():
    """Three equations over seven numbers without structure, in each order."""
    rows = [[0, -2, 0, 2, -2, 1, -4], [-4, 3, -2, 1, 1, 0, -3], [-1, 2, -1, -3, -4, -4, -4]]
    for chosen in itertools.permutations(range(3)):
        name = ", ".join(str(i + 1) for i in chosen)
        yield "three drawn equations", "graver", name, {"mat": [rows[i] for i in chosen]}


def transport():
    """Two sources and four sinks: what each gives and takes is an equation with a right side."""
    across, down = sums(2, 4)
    supply, demand = [4, 4], [2, 2, 2, 2]
    for name, rows, right in (("sources first", across + down, supply + demand),
                              ("sinks first", down + across, demand + supply)):
        yield "transport, 2 to 4", "zsolve", name, {"mat": rows, "rhs": [right], "sign": [[1] * 8]}


def knapsack():
    """A knapsack whose bounds are rows with slacks, or caps."""
    weights, most = [3, 4, 5, 7, 1], 3
    unit = [[int(i == j) for j in range(5)] for i in range(4)]
    bounds = {"mat": [weights] + unit, "rel": [["="] + ["<"] * 4], "rhs": [[20] + [most] * 4], "sign": [[1] * 5]}
    swapped = {"mat": unit + [weights], "rel": [["<"] * 4 + ["="]], "rhs": [[most] * 4 + [20]], "sign": [[1] * 5]}
    caps = {"mat": [weights], "rhs": [[20]], "sign": [[1] * 5], "cap": [[most] * 4 + ["*"]]}
    for name, files in (("bounds as rows, last", bounds), ("bounds as rows, first", swapped), ("bounds as P.cap", caps)):
        yield "knapsack of weight 20", "zsolve", name, files


def systems():
    for columns in (4, 6, 8, 10):
        yield from tables(columns)
    yield from squares(4)
    yield from drawn()
    yield from transport()
    yield from knapsack()


def run(programs, tool, files, timeout):
    """Solutions, pairs and seconds; None where the time is up."""
    with tempfile.TemporaryDirectory() as folder:
        for ending, rows in files.items():
            with open(os.path.join(folder, "P." + ending), "w", encoding="ascii") as text:
                text.write(f"{len(rows)} {len(rows[0])}\n")
                text.writelines(" ".join(map(str, row)) + "\n" for row in rows)
        found = measure([os.path.join(programs, tool), "--workers=1", "P"], folder, timeout)
    if found is None:
        return None
    words = found[2].split()
    return int(words[0]), int(words[2]), found[0]


def main():
    parser = argparse.ArgumentParser()
    parser.add_argument("--bin", required=True)
    parser.add_argument("--only", default="")
    parser.add_argument("--timeout", type=float, default=60)
    parser.add_argument("--seconds", action="store_true")
    parser.add_argument("--check", metavar="PAGE")
    args = parser.parse_args()
    page = open(args.check, encoding="utf-8").read().split("\n") if args.check else None
    lacks = 0
    print("| System | Order of the rows | Solutions | Pairs |" + " Seconds |" * args.seconds)
    print("|---|---|---|---|" + "---|" * args.seconds)
    for name, tool, order, files in systems():
        if args.only not in name:
            continue
        found = run(os.path.abspath(args.bin), tool, files, args.timeout)
        cells = f"{found[0]:,} | {found[1]:,} |" if found else "| over |"
        if args.seconds:
            cells += f" {found[2]:.2f} |" if found else " |"
        line = f"| {name} (`{tool}`) | {order} | {cells}"
        print(line, flush=True)
        if page is not None and line not in page:
            lacks += 1
            print(f"{args.check} lacks this line")
    return 1 if lacks else 0


if __name__ == "__main__":
    sys.exit(main())
