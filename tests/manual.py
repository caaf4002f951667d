#!/usr/bin/env python3
"""Runs the example programs of docs/LANGUAGE.md and docs/JOURNAL.md by the built program, and compares.

An example is an indented block with a line `; output`, `; journal` or `; error`. The program stands before the first of
them; after each stands what a run prints, its journal or the line on standard error. What isn't given is nothing, but
for the journal, which may be left out, also its first line alone. A row of a table that ends with a program between
backquotes and `NAME in PROCESS at OFFSET` is a program that ends by this error.

Journals are compared where the program can write one into a file, and otherwise left out, which is said.

    tests/manual.py [PROGRAM]       the program is crates/ql/out/ql where none is given
"""
import os
import re
import subprocess
import sys
import tempfile

TOP = os.path.dirname(os.path.dirname(os.path.abspath(__file__)))
PAGES = ["docs/LANGUAGE.md", "docs/JOURNAL.md"]
MARKS = ["; output", "; journal", "; error"]
HEAD = "qlisp 2 2000000 1000000 65535 16777216\n"
FAULT = re.compile(r"^\|.*\| `([^`]*)` \| ([a-z]+ in [0-9]+ at [0-9]+) \|$")


def blocks(page):
    """The indented blocks of a page, without their indent."""
    block = []
    for line in page.split("\n") + [""]:
        if line.startswith("    "):
            block.append(line[4:])
        elif block:
            yield block
            block = []


def example_of(block):
    """The program of a block, its output, its journal or None, and its line on standard error."""
    parts, at = {"": []}, ""
    for line in block:
        if line in MARKS:
            at = line
            parts[at] = []
        else:
            parts[at].append(line)
    text = {mark: "".join(line + "\n" for line in lines) for mark, lines in parts.items()}
    return text[""], text.get("; output", ""), text.get("; journal"), text.get("; error", "")


def examples():
    for name in PAGES:
        with open(os.path.join(TOP, name)) as file:
            page = file.read()
        for block in blocks(page):
            if any(mark in block for mark in MARKS):
                yield example_of(block)
        for row in page.split("\n"):
            fault = FAULT.match(row)
            if fault:
                yield fault[1], "", None, "ql: error %s\n" % fault[2]


def without_head(journal):
    return journal[len(HEAD):] if journal.startswith(HEAD) else journal


def differences(example, output, journal, error):
    """What differs between what an example says and what came of it. A journal that wasn't kept is None."""
    _, wanted_output, wanted_journal, wanted_error = example
    if output != wanted_output:
        yield "output", wanted_output, output
    if error != wanted_error:
        yield "standard error", wanted_error, error
    if None not in (journal, wanted_journal) and without_head(journal) != without_head(wanted_journal):
        yield "journal", wanted_journal, journal


def run(program, source, path):
    """What a run prints, its journal or None, and what it says on standard error."""
    done = subprocess.run([program, "-", path or "-", "run"], input=source.encode(), capture_output=True)
    journal = None
    if path and os.path.exists(path):
        with open(path) as file:
            journal = file.read()
    return done.stdout.decode(), journal, done.stderr.decode()


def main():
    program = sys.argv[1] if len(sys.argv) > 1 else os.path.join(TOP, "crates", "ql", "out", "ql")
    passed = failed = 0
    with tempfile.TemporaryDirectory() as folder:
        path = os.path.join(folder, "journal")
        if run(program, "", path)[1] is None:
            path = None
            print("manual: journals aren't compared, since the program keeps none")
        for example in examples():
            wrong = list(differences(example, *run(program, example[0], path)))
            passed, failed = passed + (not wrong), failed + bool(wrong)
            for what, wanted, found in wrong:
                print("manual: of\n%sthe %s should be\n%sbut is\n%s" % (example[0], what, wanted, found))
    print("%d passed, %d failed" % (passed, failed))
    return 1 if failed or not passed else 0


if __name__ == "__main__":
    sys.exit(main())
