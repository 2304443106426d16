#!/usr/bin/env python3
"""Times one, two and three rounds over 10,000, 50,000 and 200,000 transistors, each of which is a gate of its own.

Usage: bench/rounds.py

The program is crates/gatelift/out/gatelift. The cell of level 0 has one transistor, and each cell above calls the one below,
so that every instance is found at one look and what is timed is replacement and report. A lifted deck may have 400,000 cards
when it is expanded, one for each transistor and one for each chosen instance; more rounds are left out. Each figure is the best
of three runs.
"""
import os
import tempfile

from measure import HEAD, PROGRAM, best

CELL = ".subckt c0 d g s b\nm1 d g s b nch\n.ends\n"
CALLER = ".subckt c%d d g s b\nx1 d g s b c%d\n.ends\n"
CARDS = 400_000


def main():
    print("%12s %8s %12s %12s" % ("transistors", "rounds", "lift, s", "peak, MB"))
    with tempfile.TemporaryDirectory() as room:
        deck, library = os.path.join(room, "deck"), os.path.join(room, "library")
        for count in (10_000, 50_000, 200_000):
            cards = ["m%d d%d g%d s%d 0 nch" % (i, i, i, i) for i in range(count)]
            with open(deck, "w") as file:
                file.write("\n".join(["gates"] + HEAD + cards) + "\n.end\n")
            for rounds in range(1, min(3, CARDS // count - 1) + 1):
                with open(library, "w") as file:
                    file.write(CELL + "".join(CALLER % (level, level - 1) for level in range(1, rounds)))
                words = [PROGRAM, "lift", deck, library] + [os.path.join(room, name) for name in ("lifted", "map", "report")]
                least, peak, _ = best(words, 0, runs=3)
                print("%12d %8d %12.3f %12.1f" % (count, rounds, least, peak / 1024))


main()
