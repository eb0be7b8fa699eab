#!/usr/bin/env python3
"""Runs the programs with two lists of options on the same systems, in turn, and tells what the second costs.

    python3 bench/options.py --bin DIR --first="--workers=1" --second="--workers=4" [--only REGEX] [--repeat N] [--timeout S]
    python3 bench/options.py --bin DIR --second="--backup=100"
    python3 bench/options.py --bin DIR --first="--workers=4" --second="--workers=4" --team

The systems are those of bench/systems and bench/long. For each the least wall time and the least processor time (user and system) of N
runs with either list, and the ratio of the second to the first; files and summary have to be the same bytes, restart files apart. A system
that does not end in time with the first list is left out. With --team the second runs are those of `stand`. The last line has the geometric means and the greatest ratios.
"""
import argparse
import math
import os
import re
import shutil
import subprocess
import sys
import tempfile
import time

HERE = os.path.dirname(os.path.abspath(__file__))
ENDINGS = (".mat", ".sign", ".rel", ".rhs", ".cap")
TOOLS = ("graver", "hilbert", "zsolve")


def systems(only):
    """(tool, name, paths of the files) of each system, in order."""
    found = []
    for folder in ("systems", "long"):
        root = os.path.join(HERE, folder)
        for entry in sorted(os.listdir(root)):
            name, ending = os.path.splitext(entry)
            tool = name.split("-")[0]
            if ending == ".mat" and tool in TOOLS and re.search(only, name):
                paths = [os.path.join(root, name + other) for other in ENDINGS]
                found.append((tool, name, [path for path in paths if os.path.exists(path)]))
    return found


def run(program, options, name, paths, timeout):
    """(wall, processor, bytes of files and summary) of one run in a folder of its own, or None where its time is up."""
    with tempfile.TemporaryDirectory() as folder:
        for path in paths:
            shutil.copy(path, folder)
        start = time.time()
        with open(os.path.join(folder, "out"), "wb") as out:
            child = subprocess.Popen([program, *options, name], cwd=folder, stdout=out, stderr=subprocess.STDOUT)
            while True:
                pid, status, used = os.wait4(child.pid, os.WNOHANG)
                if pid:
                    break
                if time.time() - start > timeout:
                    child.kill()
                    os.wait4(child.pid, 0)
                    child.returncode = -9
                    return None
                time.sleep(0.0005)
        wall = time.time() - start
        child.returncode = status
        text = b""
        for entry in sorted(os.listdir(folder)):
            if ".ckp" not in entry:
                with open(os.path.join(folder, entry), "rb") as file:
                    text += entry.encode() + b"\0" + file.read() + b"\0"
        return wall, used.ru_utime + used.ru_stime, text + str(status).encode()


def least(results):
    """The least wall time and the least processor time."""
    return min(one[0] for one in results), min(one[1] for one in results)


def mean(values):
    return math.exp(sum(map(math.log, values)) / len(values)) if values else float("nan")


def main():
    parser = argparse.ArgumentParser(description=__doc__, formatter_class=argparse.RawDescriptionHelpFormatter)
    parser.add_argument("--bin", required=True)
    parser.add_argument("--first", default="")
    parser.add_argument("--second", required=True)
    parser.add_argument("--team", action="store_true")
    parser.add_argument("--only", default="")
    parser.add_argument("--repeat", type=int, default=3)
    parser.add_argument("--timeout", type=float, default=60)
    asked = parser.parse_args()
    first, second = asked.first.split(), asked.second.split()
    print("\t".join(("system", "wall 1", "wall 2", "ratio", "processor 1", "processor 2", "ratio", "bytes")), flush=True)
    walls, processors, differ = [], [], 0
    for tool, name, paths in systems(asked.only):
        program = os.path.abspath(os.path.join(asked.bin, tool))
        other, words = (os.path.abspath(os.path.join(asked.bin, "stand")), [tool]) if asked.team else (program, [])
        one, two = [], []
        for _ in range(asked.repeat):
            result = run(program, first, name, paths, asked.timeout)
            if result is None:
                break
            one.append(result)
            result = run(other, words + second, name, paths, 4 * asked.timeout)
            if result is None:
                break
            two.append(result)
            if result[0] > 10:
                break
        if not one or not two:
            print(f"{name}\tnot done in time", flush=True)
            continue
        same = len({result[2] for result in one + two}) == 1
        differ += not same
        (wall, processor), (other_wall, other_processor) = least(one), least(two)
        # A run shorter than some milliseconds tells nothing but how long a program takes to start.
        if wall >= 0.02:
            walls.append(other_wall / wall)
            processors.append(max(other_processor, 0.001) / max(processor, 0.001))
        cells = (wall, other_wall, other_wall / wall, processor, other_processor, max(other_processor, 0.001) / max(processor, 0.001))
        print("\t".join((name, *(f"{cell:.3f}" for cell in cells), "same" if same else "DIFFER")), flush=True)
    print(f"wall: geometric mean {mean(walls):.3f}, greatest {max(walls, default=0):.3f}; processor: geometric mean {mean(processors):.3f}, "
          f"greatest {max(processors, default=0):.3f}; over {len(walls)} systems of 20 ms or more; {differ} with other bytes")
    sys.exit(1 if differ else 0)


if __name__ == "__main__":
    main()
