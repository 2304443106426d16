#!/usr/bin/env python3
"""Times the listing of an inverter, a NAND and a NOR over 200, 2,000 and 10,000 transistors of these gates.

Usage: bench/list.py

The program is crates/gatelift/out/gatelift. The gates are drawn by a fixed rule, and so are their inputs. Each figure is
the best of three runs. Every cell is listed by exhaustion.
"""
import os
import tempfile

from measure import HEAD, PROGRAM, best

CELLS = """.global vdd
.subckt inv a y
mp y a vdd vdd pch
mn y a 0 0 nch
.ends
.subckt nand2 a b y
mp1 y a vdd vdd pch
mp2 y b vdd vdd pch
mn1 y a x 0 nch
mn2 x b 0 0 nch
.ends
.subckt nor2 a b y
mp1 x a vdd vdd pch
mp2 y b x vdd pch
mn1 y a 0 0 nch
mn2 y b 0 0 nch
.ends
"""


def mixed(count):
    """So many transistors of the three gates."""
    lines, state, gate = [], 1, 0
    while len(lines) < count:
        state = (1103515245 * state + 12345) % 2147483648
        kind = state // 65536 % 3
        a, b, y, x = "n%d" % (gate * 5 // 7), "n%d" % (gate * 3 // 5), "n%d" % (gate + 1), "x%d" % gate
        cards = (
            ((y, a, "vdd", "pch"), (y, a, "0", "nch")),
            ((y, a, "vdd", "pch"), (y, b, "vdd", "pch"), (y, a, x, "nch"), (x, b, "0", "nch")),
            ((x, a, "vdd", "pch"), (y, b, x, "pch"), (y, a, "0", "nch"), (y, b, "0", "nch")),
        )[kind]
        for drain, net, source, model in cards:
            bulk = "vdd" if model == "pch" else "0"
            lines.append("m%d %s %s %s %s %s" % (len(lines), drain, net, source, bulk, model))
        gate += 1
    return lines


def main():
    print("%12s %12s %12s" % ("transistors", "list, s", "peak, MB"))
    with tempfile.TemporaryDirectory() as room:
        deck, library = os.path.join(room, "deck"), os.path.join(room, "library")
        with open(library, "w") as file:
            file.write(CELLS)
        for count in (200, 2_000, 10_000):
            with open(deck, "w") as file:
                file.write("\n".join(["gates"] + HEAD + mixed(count)) + "\n.end\n")
            words = [PROGRAM, "lift", deck, library] + [os.path.join(room, name) for name in ("lifted", "map", "report")]
            least, peak, _ = best(words, 0, runs=3)
            print("%12d %12.3f %12.1f" % (count, least, peak / 1024))


main()
