#!/usr/bin/env python3
"""Runs the console examples of README.md and docs/COMMANDS.md by the built program, and compares.

A block of indented lines that begins with `$ ` is one: after each line with `$ ` stands what that command writes, to
standard output and standard error together. The commands of a block follow each other in one shell, in a folder that
has the examples and the program as `bin/ql`.

    tests/console.py [PROGRAM]       the program is crates/ql/out/ql where none is given
"""
import os
import subprocess
import sys
import tempfile

TOP = os.path.dirname(os.path.dirname(os.path.abspath(__file__)))
PAGES = ["README.md", "docs/COMMANDS.md"]
PROMPT = "$ "
END = "-- end of a command --"


def blocks(page):
    """The console blocks of a page: for each, its commands with what they are to write."""
    block = []
    for line in page.split("\n") + [""]:
        if line.startswith("    "):
            block.append(line[4:])
            continue
        if block and block[0].startswith(PROMPT):
            yield commands_of(block)
        block = []


def commands_of(block):
    commands = []
    for line in block:
        if line.startswith(PROMPT):
            commands.append((line[len(PROMPT):], []))
        else:
            commands[-1][1].append(line)
    return [(command, "".join(line + "\n" for line in lines)) for command, lines in commands]


def written_by(commands, folder):
    """What each command writes. A shell variable carries the status from one to the next."""
    script = "status=0\n"
    for command, _ in commands:
        script += "(exit $status)\n%s\nstatus=$?\necho '%s'\n" % (command, END)
    done = subprocess.run(["sh", "-c", script], cwd=folder, stdout=subprocess.PIPE, stderr=subprocess.STDOUT)
    return done.stdout.decode().split(END + "\n")[:-1]


def main():
    program = os.path.abspath(sys.argv[1] if len(sys.argv) > 1 else os.path.join(TOP, "crates", "ql", "out", "ql"))
    passed = failed = 0
    with tempfile.TemporaryDirectory() as folder:
        os.mkdir(os.path.join(folder, "bin"))
        os.symlink(program, os.path.join(folder, "bin", "ql"))
        os.symlink(os.path.join(TOP, "examples"), os.path.join(folder, "examples"))
        for name in PAGES:
            with open(os.path.join(TOP, name)) as file:
                page = file.read()
            for commands in blocks(page):
                for (command, wanted), found in zip(commands, written_by(commands, folder), strict=True):
                    passed, failed = passed + (found == wanted), failed + (found != wanted)
                    if found != wanted:
                        print("console: %s: %s\nshould write\n%sbut writes\n%s" % (name, command, wanted, found))
    print("%d passed, %d failed" % (passed, failed))
    return 1 if failed or not passed else 0


if __name__ == "__main__":
    sys.exit(main())
