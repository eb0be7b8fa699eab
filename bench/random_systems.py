#!/usr/bin/env python3
"""random_systems.py --bin DIR [--count N] [--seed S] [--caps]: compares the programs of DIR with 4ti2 on random small systems.

Each system is solved by both, and the solutions are compared as sets, for graver up to sign. With --caps the systems
have nonnegative variables and bounds, as `P.cap` here and as `P.ub` for 4ti2, for hilbert and zsolve alone. A system that
one of the two does not end in ten seconds, or that 4ti2 does not take, is passed over. The last line is 'N passed, M failed'.
"""
import argparse
import os
import random
import shutil
import subprocess
import sys
import tempfile


def grid(rows):
    return f"{len(rows)} {len(rows[0])}\n" + "\n".join(" ".join(map(str, row)) for row in rows) + "\n"


def system(draw, caps):
    tool = draw.choice(("hilbert", "zsolve") if caps else ("graver", "hilbert", "zsolve"))
    columns, rows, most = draw.randint(2, 5), draw.randint(1, 2), draw.choice((2, 4, 7))
    files = {"mat": [[draw.randint(-most, most) for _ in range(columns)] for _ in range(rows)]}
    if tool == "zsolve" or draw.random() < 0.5:
        files["sign"] = [[1 if caps else draw.choice((1, 1, -1, 2)) for _ in range(columns)]]
    if draw.random() < 0.5:
        files["rel"] = [[draw.choice("<>=") for _ in range(rows)]]
    if tool == "zsolve":
        files["rhs"] = [[draw.randint(-most, most) for _ in range(rows)]]
    if caps:
        files["cap"] = [[draw.choice((0, 1, 2, 3, 5, None)) for _ in range(columns)]]
    return tool, files


def solutions(folder, tool):
    found = []
    for ending in {"graver": ["gra"], "hilbert": ["hil"], "zsolve": ["zhom", "zinhom"]}[tool]:
        path = os.path.join(folder, "P." + ending)
        if not os.path.exists(path):
            return None
        words = [int(word) for word in open(path, encoding="ascii").read().split()]
        width = words[1]
        rows = {tuple(words[2 + i * width:2 + (i + 1) * width]) for i in range(words[0])}
        if tool == "graver":
            rows = {max(row, tuple(-x for x in row)) for row in rows}
        found.append(rows)
    return found


def solve(command, tool, files, ours):
    with tempfile.TemporaryDirectory() as folder:
        for ending, rows in files.items():
            if ending == "cap":
                bound = "*" if ours else "-1"
                rows = [[bound if cell is None else cell for cell in rows[0]]]
                ending = "cap" if ours else "ub"
            with open(os.path.join(folder, "P." + ending), "w", encoding="ascii") as out:
                out.write(grid(rows))
        try:
            done = subprocess.run(command, cwd=folder, stdout=subprocess.DEVNULL, stderr=subprocess.DEVNULL, timeout=10)
        except subprocess.TimeoutExpired:
            return "late"
        return solutions(folder, tool) if done.returncode == 0 else f"status {done.returncode}"


def main():
    parser = argparse.ArgumentParser(description=__doc__, formatter_class=argparse.RawDescriptionHelpFormatter)
    parser.add_argument("--bin", required=True)
    parser.add_argument("--count", type=int, default=200)
    parser.add_argument("--seed", type=int, default=1)
    parser.add_argument("--caps", action="store_true")
    options = parser.parse_args()
    draw = random.Random(options.seed)
    passed = failed = over = 0
    while passed + failed < options.count:
        tool, files = system(draw, options.caps)
        peer = shutil.which("4ti2-" + tool) or shutil.which(tool)
        theirs = solve([peer, "-q", "-p64", "P"], tool, files, False)
        ours = solve([os.path.abspath(os.path.join(options.bin, tool)), "P"], tool, files, True)
        if "late" in (ours, theirs) or isinstance(theirs, str) or ours == "status 3":
            over += 1
        elif ours == theirs and not isinstance(ours, str):
            passed += 1
        else:
            failed += 1
            print(tool, files, "here", ours, "4ti2", theirs)
    print(f"{over} systems passed over")
    print(f"{passed} passed, {failed} failed")
    return 1 if failed else 0


if __name__ == "__main__":
    sys.exit(main())
