#!/usr/bin/env python3
"""Times and peak memory of the built program, on sources that grow, and beside a stock Lisp.

Each source is measured at its size and at half of it. Those of 1 MiB for `check` have a code that is too long, most of
them, and are refused for that alone, once they are read, expanded and checked and their code is measured. Those with a
code as long as may be are checked and listed. It is no part of the gate.

    bench/run.py            prints a table
"""
import os
import shutil
import subprocess
import sys
import tempfile
import time

TOP = os.path.dirname(os.path.dirname(os.path.abspath(__file__)))
PROGRAM = os.path.join(TOP, "bin", "ql")
MIB = 1 << 20
MOST_GROWTH = 2.3
# bytes of memory at the peak for each byte of the source
MOST_BYTES = {"run": 200, "show": 200, "check": 400, "list": 400}
# about as many instructions as a code may have
MOST_CODE = 65000
RUNS = 20
LONG_CODE = b"ql: refused codetoolong at "


def spread_prints(size, lines):
    """So many lines `(print (+ 1 2))`, spread by blanks over so many bytes."""
    line = b"(print (+ 1 2))"
    blanks, more = divmod(size - lines * (len(line) + 1), lines)
    return b"".join(line + b" " * (blanks + (i < more)) + b"\n" for i in range(lines))


def nested_sums(operands):
    """Sums nested 199 deep, of so many operands in all."""
    forms = []
    while operands > 0:
        depth = min(199, max(1, operands - 1))
        forms.append(b"(+ " * depth + b"1" + b" 1)" * depth)
        operands -= depth + 1
    return b"\n".join(forms) + b"\n"


def quoted(items, size):
    """One quoted list of these items, as many as fit the size."""
    out, length = [], 4
    for item in items:
        if length + len(item) + 1 > size:
            break
        out.append(item)
        length += len(item) + 1
    return b"'(" + b" ".join(out) + b")\n"


def integers():
    n = 0
    while True:
        yield b"%d" % (n * 7919 % 1000003)
        n += 1


def symbols():
    n = 0
    while True:
        yield b"name-%d" % n
        n += 1


def one_symbol():
    while True:
        yield b"symbol"


def nests():
    while True:
        yield b"(" * 198 + b"a" + b")" * 198


def comment(size):
    return b";" + b"c" * (size - 8) + b"\n'(a)\n"


def many(size, form):
    """Forms of their numbers, as many as fit the size."""
    out, length, n = [], 0, 0
    while length < size:
        out.append(form(n))
        length += len(out[-1]) + 1
        n += 1
    return b"\n".join(out[:-1]) + b"\n"


def small_functions(size):
    """Functions of which each calls the next two, the last ones those before them."""
    count = size // 68
    return b"".join(
        b"(defun function-%d (a b) (function-%d b (function-%d a 1)))\n" % (n, (n + 1) % count, (n + 2) % count)
        for n in range(count))


def one_function(size):
    """One function of 16 parameters, and in its body lets of 16 bindings each, as many as fit the size."""
    names = [b"name-%d" % n for n in range(16)]
    bindings = b" ".join(b"(%s %s)" % (name, names[i - 1]) for i, name in enumerate(names))
    head, let = b"(defun f (%s)\n" % b" ".join(names), b"(let (%s) %s)\n" % (bindings, names[7])
    return head + let * ((size - len(head)) // len(let)) + b")\n"


def globals_and_uses(size):
    """Globals, and a sum of each with the one before it."""
    return many(size, lambda n: b"(defvar global-%d (if (eq 0 %d) 1 (+ global-%d 1)))" % (n, n, max(0, n - 1)))


def nested_lets(n):
    """Lets 197 deep, each of which binds a name of its own."""
    return b"".join(b"(let ((v%d %d)) " % (i, i) for i in range(197)) + b"v0" + b")" * 197


def deepest_lets(n):
    """Lets and sugar by turns, down to level 396 of 400."""
    return b"(let (a) (and " * 79 + b"a" + b"))" * 79


def wide_bindings(n):
    return b"(let* (" + b" ".join(b"(v%d %s)" % (i, b"v%d" % (i - 1) if i else b"0") for i in range(196)) + b") v195)"


def nested_closures(n):
    """Closures 90 deep, each of which captures the parameters of all around it."""
    names = [b"v%d" % i for i in range(90)]
    return b"".join(b"(lambda (" + name + b") " for name in names) + b"(list " + b" ".join(names) + b")" + b")" * 90


def quoted_lists(n):
    return b"'(" + b" ".join(b"(a%d . b)" % (n + i) for i in range(20)) + b")"


def fitting(half, length, form):
    """Forms with codes of this length and a drop, as many as a code may have, or half of them."""
    return b"\n".join(form(n) for n in range((MOST_CODE // (length + 1)) >> half)) + b"\n"


FITTING = [
    ("small functions", lambda half: small_functions((68 * MOST_CODE // 6) >> half)),
    ("one function", lambda half: one_function((280 * MOST_CODE // 20) >> half)),
    ("nested lets", lambda half: fitting(half, 592, nested_lets)),
    ("nested closures", lambda half: fitting(half, 361, nested_closures)),
    ("sums of 198", lambda half: fitting(half, 395, lambda n: b"(+" + b" 1" * 198 + b")")),
    ("quoted lists", lambda half: many(MIB >> half, quoted_lists)),
]

SOURCES = [
    ("check", "small functions", lambda half: small_functions(MIB >> half)),
    ("check", "one function", lambda half: one_function(MIB >> half)),
    ("check", "globals", lambda half: globals_and_uses(MIB >> half)),
    ("check", "nested lets", lambda half: many(MIB >> half, nested_lets)),
    ("check", "lets down to level 396", lambda half: many(MIB >> half, deepest_lets)),
    ("check", "lists of 198", lambda half: many(MIB >> half, lambda n: b"(list" + b" 1" * 198 + b")")),
    ("check", "conds of 198", lambda half: many(MIB >> half, lambda n: b"(cond" + b" (1 2)" * 198 + b")")),
    ("check", "conds of 198 tests", lambda half: many(MIB >> half, lambda n: b"(cond" + b" (1)" * 198 + b")")),
    ("check", "ors of 198", lambda half: many(MIB >> half, lambda n: b"(or" + b" 1" * 198 + b")")),
    ("check", "ands of 198", lambda half: many(MIB >> half, lambda n: b"(and" + b" 1" * 198 + b")")),
    ("check", "sums of 198", lambda half: many(MIB >> half, lambda n: b"(+" + b" 1" * 198 + b")")),
    ("check", "let* of 196 bindings", lambda half: many(MIB >> half, wide_bindings)),
    ("check", "quoted integers", lambda half: quoted(integers(), MIB >> half)),
    ("run", "13,000 spread prints", lambda half: spread_prints(MIB >> half, 13000 >> half)),
    ("run", "nested sums, 32,000 operands", lambda half: nested_sums(32000 >> half)),
    ("show", "integers", lambda half: quoted(integers(), MIB >> half)),
    ("show", "distinct symbols", lambda half: quoted(symbols(), MIB >> half)),
    ("show", "one symbol", lambda half: quoted(one_symbol(), MIB >> half)),
    ("show", "199-level nests", lambda half: quoted(nests(), MIB >> half)),
    ("show", "one long comment", lambda half: comment(MIB >> half)),
] + [(command, "longest code: " + name, make) for name, make in FITTING for command in ("check", "list")]


def measure(command, paths):
    """Of each source, the least time of some runs, in seconds, and the greatest peak memory, in bytes. The sources
    take turns, so that what else the machine does falls on all of them."""
    best, peak = [float("inf")] * len(paths), [0] * len(paths)
    for _ in range(RUNS):
        for i, path in enumerate(paths):
            with open(path, "rb") as source, open(os.devnull, "wb") as sink:
                start = time.perf_counter()
                child = subprocess.Popen(command, stdin=source, stdout=sink, stderr=subprocess.PIPE)
                _, status, usage = os.wait4(child.pid, 0)
                took = time.perf_counter() - start
            with child.stderr as lines:
                said = lines.read()
            if status != 0 and not (command[-1] == "check" and said.startswith(LONG_CODE)):
                sys.exit("%s ended with %d on %s: %s" % (command, status, path, said.decode()))
            best[i], peak[i] = min(best[i], took), max(peak[i], usage.ru_maxrss * 1024)
    return best, peak


def measure_lisp(lisp, path):
    """Reads all forms of a file with a stock Lisp, and prints them."""
    script = '(with-open-file (in "%s") (let ((*print-pretty* nil)) (loop for form = (read in nil in) until (eq form in) do (prin1 form) (terpri))))' % path
    best = None
    for _ in range(2):
        start = time.perf_counter()
        subprocess.run([lisp, "-q", "-q", "-norc", "-m", "500MB", "-x", script], stdout=subprocess.DEVNULL, check=True)
        took = time.perf_counter() - start
        best = took if best is None else min(best, took)
    return best


def main():
    lisp = shutil.which("clisp")
    subprocess.run([PROGRAM, "-", "-", "show"], stdin=subprocess.DEVNULL, check=True)
    built = os.path.join(TOP, "crates", "ql", "out", "ql")
    bad = []
    print("%-5s %-30s %9s %9s %7s %8s %10s %10s" % ("", "source", "bytes", "seconds", "growth", "MB/s", "peak/byte", "clisp MB/s"))
    with tempfile.TemporaryDirectory() as folder:
        for command, name, make in SOURCES:
            paths = []
            for half in (1, 0):
                text = make(half)
                paths.append(os.path.join(folder, "source-%d" % half))
                with open(paths[-1], "wb") as file:
                    file.write(text)
            path = paths[-1]
            (less, took), (_, peak) = measure([built, "-", "-", command], paths)
            growth, speed, weight = took / less, len(text) / took / 1e6, peak / len(text)
            other = ""
            if command == "show" and lisp:
                slow = measure_lisp(lisp, path)
                other = "%.2f" % (len(text) / slow / 1e6)
                if speed < 3 * len(text) / slow / 1e6:
                    bad.append("%s: less than three times as fast as clisp" % name)
            print("%-5s %-30s %9d %9.4f %7.2f %8.1f %10.1f %10s" % (command, name, len(text), took, growth, speed, weight, other))
            if growth > MOST_GROWTH:
                bad.append("%s: grows %.2f-fold where the source doubles" % (name, growth))
            if weight > MOST_BYTES[command] and len(text) >= MIB // 4:
                bad.append("%s: %.0f bytes a source byte" % (name, weight))
    print("%d cores" % os.cpu_count())
    for line in bad:
        print("TOO MUCH: " + line)
    return 1 if bad else 0


if __name__ == "__main__":
    sys.exit(main())
