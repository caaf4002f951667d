#!/usr/bin/env python3
"""Times and peak memory of runs by a built program, on programs that grow, and beside stock languages.

Each program is measured at two sizes. The column `work` says how many times more work the greater one is, about 2 or, of
fib, 1.62; the growth of the time should be that. A time is the best of some runs, in which the sizes take turns, with
the start of the program. The peak is that of its memory at the greater size. `clisp` runs bytecode, from a file that was
compiled before; `sbcl` is given the source by `--script` and compiles it as it loads it, and so does `lua5.4`. They do
the same work in their usual way: calls for calls, loops for loops, lists (in Lua, tables) for lists. What they lack,
processes and queues, isn't compared. It is no part of the gate.

    bench/host.py PROGRAM [--runs N]    the best of N runs; 5 where it isn't given

Runs have the greatest limits, 20,000,000 ticks and 4,000,000 cells.
"""
import argparse
import os
import shutil
import subprocess
import sys
import tempfile
import time

# how many times the growth of the work the growth of the time may be
MOST_GROWTH = 1.15
GOLDEN = 1.618

LIMITS = ["--budget", "20000000", "--cells", "4000000"]

# A program is a template in which @ stands for a size, and `says` gives what it prints for a size.
FIB = "(defun fib (n) (if (< n 2) n (+ (fib (- n 1)) (fib (- n 2)))))\n"
FIB_LUA = "local function fib(n) if n < 2 then return n end return fib(n - 1) + fib(n - 2) end\n"


def fib(n):
    a, b = 0, 1
    for _ in range(n):
        a, b = b, a + b
    return a


class Bench:
    """`less` gives the smaller one of two sizes, and `work` is how many times more work the greater one is."""
    def __init__(self, name, size, less, work, source, says, lisp=None, lua=None, status=0):
        self.name, self.size, self.less, self.work = name, size, less, work
        self.source, self.says, self.lisp, self.lua, self.status = source, says, lisp, lua, status


def halved(n):
    return n // 2


def one_less(n):
    return n - 1


BENCHES = [
    Bench("fib", 27, one_less, GOLDEN, FIB + "(print (fib @))\n", fib,
          lisp=FIB + "(print (fib @))\n", lua=FIB_LUA + "print(fib(@))\n"),
    Bench("loop with setq, steps", 740_000, halved, 2,
          "(defvar total 0)\n"
          "(defun inner (n) (if (= n 0) nil (progn (setq total (+ total n)) (inner (- n 1)))))\n"
          "(defun outer (n) (if (= n 0) nil (progn (inner 1000) (outer (- n 1)))))\n"
          "(outer (truncate @ 1000))\n(print total)\n",
          lambda n: n // 1000 * 500_500,
          lisp="(defvar total 0)\n"
               "(defun outer (n) (loop repeat n do (loop for i from 1000 downto 1 do (setq total (+ total i)))))\n"
               "(outer (truncate @ 1000))\n(print total)\n",
          lua="total = 0\nfor o = 1, @ // 1000 do for i = 1000, 1, -1 do total = total + i end end\nprint(total)\n"),
    Bench("list built and summed, cells", 1_000_000, halved, 2,
          "(defun build (n l) (if (= n 0) l (build (- n 2) (cons n (cons n l)))))\n"
          "(defun sum (l s) (if (null l) s (sum (cdr (cdr l)) (+ s (+ (car l) (car (cdr l)))))))\n"
          "(print (sum (build @ nil) 0))\n",
          lambda n: n // 2 * (n // 2 + 1) * 2,
          lisp="(defun build (n) (let ((l nil)) (loop while (> n 0) do (setq l (cons n (cons n l)) n (- n 2))) l))\n"
               "(defun sum (l) (let ((s 0)) (loop for x in l do (setq s (+ s x))) s))\n"
               "(print (sum (build @)))\n",
          lua="local l, s = nil, 0\nfor n = @, 2, -2 do l = {n, {n, l}} end\n"
              "while l do s = s + l[1]; l = l[2] end\nprint(s)\n"),
    Bench("4 x fib by qlet t", 24, one_less, GOLDEN,
          FIB + "(print (qlet t ((a (fib @)) (b (fib @)) (c (fib @)) (d (fib @))) (+ a b c d)))\n",
          lambda n: 4 * fib(n)),
    Bench("tree of processes, levels", 15, one_less, 2,
          "(defun tree (n) (if (= n 0) 1 (qlet t ((a (tree (- n 1))) (b (tree (- n 1)))) (+ a b))))\n"
          "(print (tree @))\n",
          lambda n: 2 ** n),
    Bench("bomb, up to 65,535 processes", None, None, None,
          "(defun bomb () (qlet t ((a (bomb)) (b (bomb))) nil))\n(bomb)\n",
          None, status=6),
    Bench("calls through a qlambda, ignored", 100_000, halved, 2,
          "(defvar count 0)\n"
          "(defvar add (qlambda t (n) (setq count (+ count n))))\n"
          "(defun calls (n) (if (= n 0) (funcall add 0) (progn (funcall add 1) (calls (- n 1)))))\n"
          "(print (calls @))\n",
          lambda n: n),
    Bench("calls through a qlambda, used", 100_000, halved, 2,
          "(defvar count 0)\n"
          "(defvar add (qlambda t (n) (setq count (+ count n))))\n"
          "(defun calls (n) (if (= n 0) (funcall add 0) (let ((c (funcall add 1))) (calls (- n 1)))))\n"
          "(print (calls @))\n",
          lambda n: n),
]


def text_of(template, size):
    return template.replace("@", str(size))


def run(command, source):
    """The seconds and peak memory of a command, and its status, output and standard error."""
    with tempfile.TemporaryFile() as out, tempfile.TemporaryFile() as err, open(source, "rb") as given:
        start = time.perf_counter()
        child = subprocess.Popen(command, stdin=given, stdout=out, stderr=err)
        _, status, usage = os.wait4(child.pid, 0)
        took = time.perf_counter() - start
        out.seek(0)
        err.seek(0)
        return took, usage.ru_maxrss * 1024, os.waitstatus_to_exitcode(status), out.read().decode(), err.read().decode()


def least(jobs, runs):
    """Of each job, a command, its input and its right status and output, the least time and the greatest peak."""
    best, peak = [float("inf")] * len(jobs), [0] * len(jobs)
    for _ in range(runs):
        for i, (command, source, status, output) in enumerate(jobs):
            took, memory, ended, said, complaint = run(command, source)
            if ended != status or (output is not None and said.split() != output.split()):
                sys.exit("%s ended with %d and %r on %s: %s" % (command, ended, said[-200:], source, complaint.strip()))
            best[i], peak[i] = min(best[i], took), max(peak[i], memory)
    return best, peak


def written(folder, name, text):
    path = os.path.join(folder, name)
    with open(path, "w") as file:
        file.write(text)
    return path


def others(bench, size, folder, output):
    """The jobs of the stock languages that are installed, by name."""
    jobs = {}
    empty = written(folder, "empty", "")
    if bench.lisp:
        source = written(folder, "other.lisp", text_of(bench.lisp, size))
        if shutil.which("clisp"):
            subprocess.run(["clisp", "-q", "-q", "-norc", "-c", source], stdout=subprocess.DEVNULL, stderr=subprocess.DEVNULL, check=True)
            jobs["clisp"] = (["clisp", "-q", "-q", "-norc", "-m", "500MB", os.path.join(folder, "other.fas")], empty, 0, output)
        if shutil.which("sbcl"):
            jobs["sbcl"] = (["sbcl", "--script", source], empty, 0, output)
    if bench.lua and shutil.which("lua5.4"):
        jobs["lua5.4"] = (["lua5.4", written(folder, "other.lua", text_of(bench.lua, size))], empty, 0, output)
    return jobs


def measured(bench, program, runs, folder):
    """A row of the table, and the growth of the time."""
    size = bench.size
    command = [program, "-", "-", "run"] + LIMITS
    sizes = [bench.less(size), size] if bench.less else [size]
    jobs = []
    for n in sizes:
        source = written(folder, "source-%s.ql" % n, text_of(bench.source, n))
        jobs.append((command, source, bench.status, str(bench.says(n)) if bench.says else None))
    best, peak = least(jobs, runs)
    growth = best[-1] / best[0] if bench.less else None
    other = {}
    for name, job in others(bench, size, folder, str(bench.says(size)) if bench.says else None).items():
        other[name] = least([job], runs)[0][0]
    ratios = ("%.2f" % growth, "%.2f" % bench.work) if bench.less else ("", "")
    row = "%-34s %9s %9.3f %7s %5s %9.1f" % (bench.name, size or "", best[-1], *ratios, peak[-1] / 1e6)
    for name in ("clisp", "sbcl", "lua5.4"):
        row += " %9s" % ("%.3f" % other[name] if name in other else "")
    return row, growth


def generated(program, runs, folder):
    """Prints what the greatest generated program takes to write and to run."""
    empty = written(folder, "empty", "")
    jobs = [([program, "-", "-", "gen", "7", "3000"], empty, 0, None),
            ([program, "-", os.path.join(folder, "journal"), "trial", "7", "3000"], empty, 0, "4501500 trial 7 3000 done")]
    for (command, *_), took, peak in zip(jobs, *least(jobs, runs)):
        print("%-34s %9s %9.3f %7s %5s %9.1f" % (" ".join(command[3:]), "", took, "", "", peak / 1e6))


def main():
    parser = argparse.ArgumentParser(description=__doc__, formatter_class=argparse.RawDescriptionHelpFormatter)
    parser.add_argument("program", metavar="PROGRAM")
    parser.add_argument("--runs", type=int, default=5)
    words = parser.parse_args()
    bad = []
    print("%-34s %9s %9s %7s %5s %9s %9s %9s %9s" % ("program", "size", "seconds", "growth", "work", "peak MB", "clisp", "sbcl", "lua5.4"))
    with tempfile.TemporaryDirectory() as folder:
        for bench in BENCHES:
            row, growth = measured(bench, os.path.abspath(words.program), words.runs, folder)
            print(row, flush=True)
            if growth and growth > MOST_GROWTH * bench.work:
                bad.append("%s: takes %.2f times as long for %.2f times the work" % (bench.name, growth, bench.work))
        generated(os.path.abspath(words.program), words.runs, folder)
    print("%d cores" % os.cpu_count())
    for line in bad:
        print("TOO MUCH: " + line)
    return 1 if bad else 0


if __name__ == "__main__":
    sys.exit(main())
