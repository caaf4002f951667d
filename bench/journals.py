#!/usr/bin/env python3
"""Times and peak memory of `replay` and `span` by a built program, on journals that grow, and beside the runs that they tell.

A journal of many ticks is that of fib, of few lines; one of many lines is that of calls through a qlambda. Each is made by
`run` and read back. A time is the best of some runs, in which the sizes take turns, with the start of the program; it
should grow as the work does. It is no part of the gate.

    bench/journals.py PROGRAM [--runs N]    the best of N runs; 5 where it isn't given
"""
import argparse
import os
import subprocess
import sys
import tempfile

from host import BENCHES, GOLDEN, LIMITS, MOST_GROWTH, fib, least, text_of, written

FIB = next(bench.source for bench in BENCHES if bench.name == "fib")
CALLS = next(bench.source for bench in BENCHES if bench.name == "calls through a qlambda, used")

# the program, its sizes, how many times more work the greater one is, and what it prints
PROGRAMS = [
    ("fib", FIB, (27, 28), GOLDEN, fib),
    ("calls through a qlambda", CALLS, (100_000, 200_000), 2, lambda n: n),
]


def journal_of(program, folder, source, size):
    """The journal of a run, as a file, and how many lines it has."""
    path = os.path.join(folder, "journal-%d" % size)
    subprocess.run([program, source, path, "run"] + LIMITS, stdout=subprocess.DEVNULL, check=True)
    with open(path) as file:
        return path, sum(1 for _ in file)


def measured(program, runs, folder, told):
    """A row for each of the commands, and its growth beside that of the work."""
    name, template, sizes, work, says = told
    empty = written(folder, "empty", "")
    jobs = {"run": [], "replay": [], "span": []}
    for size in sizes:
        source = written(folder, "source-%d.ql" % size, text_of(template, size))
        journal, lines = journal_of(program, folder, source, size)
        jobs["run"].append(([program, source, os.path.join(folder, "again"), "run"] + LIMITS, empty, 0, str(says(size))))
        jobs["replay"].append(([program, source, journal, "replay"], empty, 0, str(says(size))))
        jobs["span"].append(([program, "-", journal, "span"], empty, 0, None))
    for command, both in jobs.items():
        best, peak = least(both, runs)
        growth = best[1] / best[0]
        what = "%s of %s" % (command, name)
        yield "%-36s %9d %9d %9.3f %7.2f %5.2f %9.1f" % (what, sizes[1], lines, best[1], growth, work, peak[1] / 1e6), growth, work


def main():
    parser = argparse.ArgumentParser(description=__doc__, formatter_class=argparse.RawDescriptionHelpFormatter)
    parser.add_argument("program", metavar="PROGRAM")
    parser.add_argument("--runs", type=int, default=5)
    words = parser.parse_args()
    bad = []
    print("%-36s %9s %9s %9s %7s %5s %9s" % ("command", "size", "lines", "seconds", "growth", "work", "peak MB"))
    with tempfile.TemporaryDirectory() as folder:
        for told in PROGRAMS:
            for row, growth, work in measured(os.path.abspath(words.program), words.runs, folder, told):
                print(row, flush=True)
                if growth > MOST_GROWTH * work:
                    bad.append("%s takes %.2f times as long for %.2f times the work" % (row.split("  ")[0], growth, work))
    print("%d cores" % os.cpu_count())
    for line in bad:
        print("TOO MUCH: " + line)
    return 1 if bad else 0


if __name__ == "__main__":
    sys.exit(main())
