#!/usr/bin/env python3
"""Runs the cases of vectors/runs.json by the built program, and compares.

A case has the words of the command, the source on standard input, and what is to come of it: the exit status, the
output, the journal, which goes to a file (null where none is written), and the line on standard error. The cases come
from an implementation of the language that shares nothing with this one.

So far one worker runs a program, however many the words ask for, so a journal is the same in each run and is compared
as a whole.

    tests/vectors.py [PROGRAM]       the program is crates/ql/out/ql where none is given
"""
import json
import os
import subprocess
import sys
import tempfile
from concurrent.futures import ThreadPoolExecutor

TOP = os.path.dirname(os.path.dirname(os.path.abspath(__file__)))
CASES = os.path.join(TOP, "vectors", "runs.json")
THREADS = 4
SECONDS = 60
SHOWN = 300


def run(program, case, path):
    """What comes of a case, whose journal goes to a new file at `path`."""
    words = [program, "-", path] + case["words"]
    done = subprocess.run(words, input=case["source"].encode(), capture_output=True, timeout=SECONDS)
    journal = None
    if os.path.exists(path):
        with open(path) as file:
            journal = file.read()
    return {
        "status": done.returncode,
        "output": done.stdout.decode(),
        "journal": journal,
        "error": done.stderr.decode(),
    }


def as_compared(what, told):
    """A part of what came of a case. No journal is an empty one."""
    return (told or "") if what == "journal" else told


def differences(case, found):
    """Each part of what came of a case that isn't as it should be."""
    for what in found:
        wanted, told = (as_compared(what, parts[what]) for parts in (case, found))
        if wanted != told:
            yield what, wanted, told


def messages(program, case, path):
    """What is wrong with the run of a case, in lines."""
    try:
        found = run(program, case, path)
    except subprocess.TimeoutExpired:
        return ["has no end after %d seconds" % SECONDS]
    wrong = differences(case, found)
    return ["%s should be %s but is %s" % (what, shown(wanted), shown(told)) for what, wanted, told in wrong]


def shown(told):
    text = repr(told)
    return text if len(text) <= SHOWN else ".. " + text[-SHOWN:]


def main():
    program = sys.argv[1] if len(sys.argv) > 1 else os.path.join(TOP, "crates", "ql", "out", "ql")
    with open(CASES) as file:
        cases = json.load(file)
    passed = failed = 0
    with tempfile.TemporaryDirectory() as folder, ThreadPoolExecutor(THREADS) as pool:
        paths = [os.path.join(folder, str(number)) for number in range(len(cases))]
        for case, wrong in zip(cases, pool.map(messages, [program] * len(cases), cases, paths)):
            passed, failed = passed + (not wrong), failed + bool(wrong)
            for message in wrong:
                print("vectors: %s: %s" % (case["name"], message))
    print("%d passed, %d failed" % (passed, failed))
    return 1 if failed or not passed else 0


if __name__ == "__main__":
    sys.exit(main())
