#!/usr/bin/env python3
"""Times the job `flat` on decks that flatten to 10,000, 100,000 and 200,000 transistors, and on hostile decks.

Usage: bench/flat.py [FLOOR]

The program is crates/gatelift/out/gatelift. Each size is a deck of devices at the top, and a deck of X cards, each of a
block of 100 transistors. FLOOR is a program that reads the flat deck which comes out, for comparison (`FLOOR DECK`).
Each figure is the best of five runs, the two programs by turns. The hostile decks double at each of 32 subcircuits, or
are one deeper, and are refused.
"""
import os
import sys
import tempfile

from measure import HEAD, PROGRAM, best, beside, gates


def blocks(count):
    """A deck of X cards of a block of 100 transistors, with so many transistors in all."""
    ports = ["p%d" % i for i in range(20)]
    inside = []
    for line in gates(100):
        for i, port in enumerate(ports):
            line = line.replace(" net%d " % (i * 7 % 50021), " %s " % port)
        inside.append(line)
    calls = ["X%d %s block" % (i, " ".join("w%d" % (i * 20 + k) for k in range(20))) for i in range(count // 100)]
    return HEAD + [".subckt block " + " ".join(ports)] + inside + [".ends"] + calls


def doubling(deep):
    """Subcircuits of which each calls the one before twice."""
    lines = [".subckt e0", ".ends"]
    for i in range(1, deep):
        lines += [".subckt e%d" % i, "x1 e%d" % (i - 1), "x2 e%d" % (i - 1), ".ends"]
    return lines + ["x1 e%d" % (deep - 1)]


def write(path, lines):
    with open(path, "w") as file:
        file.write("\n".join(["a deck"] + lines) + "\n.end\n")


def main():
    floor = sys.argv[1] if len(sys.argv) > 1 else None
    print("%-20s %12s %12s %12s %8s" % ("deck", "flat, s", "peak, MB", "floor, s", "times"))
    with tempfile.TemporaryDirectory() as room:
        path, out = os.path.join(room, "deck"), os.path.join(room, "out")
        words = [PROGRAM, "flat", path, out]
        for name, make in (("devices", lambda n: HEAD + gates(n)), ("blocks", blocks)):
            for count in (10_000, 100_000, 200_000):
                write(path, make(count))
                least, peak, ground = best(words, 0, [floor, out] if floor else None)
                print("%-20s %12.3f %12.1f %s" % ("%d %s" % (count, name), least, peak / 1024, beside(least, ground)))
        for name, deep in (("doubling", 32), ("one deeper", 33)):
            write(path, doubling(deep))
            least, peak, _ = best(words, 2)
            print("%-20s %12.3f %12.1f %s" % (name, least, peak / 1024, beside(least, None)))


main()
