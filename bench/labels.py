#!/usr/bin/env python3
"""Times the labels of circuits of 200,000 transistors to depths 4 and 16, and shows peak memory.

Usage: bench/labels.py [FLOOR]

The program is crates/gl_pace/out/gl_pace (`rt run` in crates/gl_pace builds it). The circuit is made alone, and then made and
labelled; the difference is the time of labels. FLOOR is a program that reads a deck of as many transistors, for comparison
(`FLOOR DECK`). Each figure is the best of five runs.
"""
import os
import subprocess
import sys
import tempfile
import time

from measure import HEAD, TOP, best, gates

PACE = os.path.join(TOP, "crates/gl_pace/out/gl_pace")
COUNT = 200_000
RUNS = 5


def paced(kind, depth):
    """The least seconds and most kilobytes of some runs of the program on one line."""
    least, peak = None, 0
    for _ in range(RUNS):
        start = time.perf_counter()
        child = subprocess.Popen([PACE], stdin=subprocess.PIPE, stdout=subprocess.DEVNULL)
        child.stdin.write(("%s %d %s\n" % (kind, COUNT, depth)).encode())
        child.stdin.close()
        _, status, usage = os.wait4(child.pid, 0)
        seconds = time.perf_counter() - start
        if status != 0:
            sys.exit("the program ended with status %d" % status)
        least = seconds if least is None else min(least, seconds)
        peak = max(peak, usage.ru_maxrss)
    return least, peak


def floor_of(program):
    """The least seconds of the floor on a deck of as many transistors."""
    with tempfile.TemporaryDirectory() as room:
        path = os.path.join(room, "deck")
        with open(path, "w") as file:
            file.write("\n".join(["a deck of %d transistors" % COUNT] + HEAD + gates(COUNT)) + "\n.end\n")
        return best([program, path], 0)[0]


def main():
    rows = []
    for kind in ("gates", "ring", "chain"):
        made, _ = paced(kind, "none")
        for depth in (4, 16):
            whole, peak = paced(kind, str(depth))
            rows.append((kind, depth, whole - made, peak / 1024))
    # The floor comes last, since what this script holds counts in the peak of what it starts.
    ground = floor_of(sys.argv[1]) if len(sys.argv) > 1 else None
    if ground:
        print("floor %.3f s" % ground)
    print("%8s %6s %12s %12s %8s" % ("kind", "depth", "labels, s", "peak, MB", "times"))
    for kind, depth, seconds, peak in rows:
        times = "%8.1f" % (seconds / ground) if ground else "%8s" % "-"
        print("%8s %6d %12.3f %12.1f %s" % (kind, depth, seconds, peak, times))


main()
