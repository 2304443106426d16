#!/usr/bin/env python3
"""Times the reading of decks of 10,000, 100,000 and 200,000 transistors, and shows peak memory.

Usage: bench/read.py [FLOOR]

The program is crates/gatelift/out/gatelift. It is given a library whose one card stands outside subcircuits, so that the
run ends with status 3 as soon as the deck is read and the library refused: the time is that of reading. FLOOR is a
program that reads the same deck, for comparison (`FLOOR DECK`). Each figure is the best of five runs, the two programs
by turns.
"""
import os
import sys
import tempfile

from measure import HEAD, PROGRAM, best, beside, gates


def main():
    floor = sys.argv[1] if len(sys.argv) > 1 else None
    print("%9s %12s %12s %12s %8s" % ("cards", "read, s", "peak, MB", "floor, s", "times"))
    with tempfile.TemporaryDirectory() as room:
        library = os.path.join(room, "library")
        with open(library, "w") as file:
            file.write("r1 a b 1k\n")
        for cards in (10_000, 100_000, 200_000):
            path = os.path.join(room, "deck")
            with open(path, "w") as file:
                file.write("\n".join(["a deck of %d transistors" % cards] + HEAD + gates(cards)) + "\n.end\n")
            words = [PROGRAM, "lift", path, library] + [os.path.join(room, name) for name in ("lifted", "map", "report")]
            least, peak, ground = best(words, 3, [floor, path] if floor else None)
            print("%9d %12.3f %12.1f %s" % (cards, least, peak / 1024, beside(least, ground)))


main()
