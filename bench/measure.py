"""Runs programs and takes the best of several runs, for the scripts beside it."""
import os
import subprocess
import sys
import time

TOP = os.path.dirname(os.path.dirname(os.path.abspath(__file__)))
PROGRAM = os.path.join(TOP, "crates/gatelift/out/gatelift")
RUNS = 5


def run(words):
    """Seconds, peak kilobytes and status of a program's run."""
    start = time.perf_counter()
    child = subprocess.Popen(words, stdout=subprocess.DEVNULL, stderr=subprocess.DEVNULL)
    _, status, usage = os.wait4(child.pid, 0)
    return time.perf_counter() - start, usage.ru_maxrss, os.waitstatus_to_exitcode(status)


def best(words, status, floor=None, runs=RUNS):
    """The least seconds and most kilobytes of some runs that end with a status, and the least seconds of the floor, by turns."""
    least, peak, ground = None, 0, None
    for _ in range(runs):
        seconds, kilobytes, ended = run(words)
        if ended != status:
            sys.exit("the program ended with status %d" % ended)
        least = seconds if least is None else min(least, seconds)
        peak = max(peak, kilobytes)
        if floor:
            seconds, _, ended = run(floor)
            if ended != 0:
                sys.exit("the floor ended with status %d" % ended)
            ground = seconds if ground is None else min(ground, seconds)
    return least, peak, ground


def beside(least, ground):
    """The floor's seconds, and how many times as long it took."""
    return "%12.3f %8.1f" % (ground, least / ground) if ground else "%12s %8s" % ("-", "-")


def gates(count):
    """So many transistors of two-input gates, with sizes as an extractor writes them."""
    lines = []
    gate = 0
    while len(lines) < count:
        a, b, y, x = ("net%d" % (gate * 7 % 50021), "net%d" % (gate * 3 % 49999), "out%d" % gate, "inner%d" % gate)
        tail = "w=%.2fu l=0.18u as=0.35p ps=2.1u" % (0.4 + gate % 17 / 10)
        for name, nodes, model in (
            ("p1", (y, a, "vdd", "vdd"), "pch"),
            ("p2", (y, b, "vdd", "vdd"), "pch"),
            ("n1", (y, a, x, "0"), "nch"),
            ("n2", (x, b, "0", "0"), "nch"),
        ):
            lines.append("M%s_%d %s %s %s" % (name, gate, " ".join(nodes), model, tail))
        gate += 1
    return lines[:count]


HEAD = [".global vdd", ".model nch nmos", ".model pch pmos"]
