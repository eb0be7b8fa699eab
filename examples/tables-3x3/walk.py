#!/usr/bin/env python3
"""walk.py FILE STEPS START..: a random walk on the tables with the row and column sums of START, by the moves of FILE.

FILE is a Graver basis as `graver` writes it, START the cells of a table, row by row. Each step draws a move and a
sign, and takes it where no cell falls below 0. Prints the table at the end and how many different tables were met.
"""
import random
import sys


def main():
    words = [int(word) for word in open(sys.argv[1], encoding="ascii").read().split()]
    count, width = words[0], words[1]
    moves = [words[2 + i * width:2 + (i + 1) * width] for i in range(count)]
    table = [int(word) for word in sys.argv[3:]]
    draw = random.Random(1)
    met = {tuple(table)}
    for _ in range(int(sys.argv[2])):
        move, sign = draw.choice(moves), draw.choice((1, -1))
        after = [cell + sign * step for cell, step in zip(table, move)]
        if min(after) >= 0:
            table = after
            met.add(tuple(table))
    print(*table)
    print(len(met), "tables")


main()
