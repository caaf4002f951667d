#!/usr/bin/env python3
"""Reads the journals of vectors/runs.json back by the built program, and compares.

Each journal is one of its program's: `replay` prints what that run printed, also where the journal is turned into one of
version 1. Then lines are tampered with, and the first line that differs is known, since the events of a turn follow from
the program and the turns so far:

- a line that ends in a letter more is no line of any journal, so it differs;
- a book that stops behind a line, or within it, differs at the next line, or at that one;
- a line that stands twice differs where it stands again: no turn comes directly after one of the same process, and no event
  is written twice;
- where an event is left out, what stands in its place differs; so does an event that has lost its turn;
- a turn with events can't take one tick more.

And `span` is compared with a plain slow walk over all chains, that follows docs/JOURNAL.md.

    tests/replays.py [PROGRAM]       the program is crates/ql/out/ql where none is given
"""
import json
import os
import subprocess
import sys
import tempfile
from concurrent.futures import ThreadPoolExecutor

TOP = os.path.dirname(os.path.dirname(os.path.abspath(__file__)))
CASES = os.path.join(TOP, "vectors", "runs.json")
THREADS = 4
SECONDS = 60
# of a long journal so many lines are tampered with, and no longer one is walked over slowly
LINES = 6
WALKED = 400
USUAL = "qlisp 2 2000000 1000000 65535 16777216"


def text_of(lines):
    return "".join(line + "\n" for line in lines)


def is_turn(line):
    return line.startswith("turn ")


def is_event(line):
    return not is_turn(line) and not line.startswith(("qlisp ", "stop "))


def plain(line):
    """A line of version 2 as version 1 has it."""
    words = line.split(" ")
    if words[0] == "end" and words[2] == "ok":
        return " ".join(words[:3])
    return " ".join(words[:4]) if words[0] == "reply" else line


def some_places(lines):
    """Places of a journal from its first line to its last."""
    last = len(lines) - 1
    return sorted({last * k // LINES for k in range(LINES + 1)})


def tampered(lines):
    """Books that differ from the journal of these lines, each with the line at which it differs from all journals."""
    yield "without its last line feed", text_of(lines)[:-1], len(lines)
    for at in some_places(lines):
        before, line, after = lines[:at], lines[at], lines[at + 1:]
        number = at + 1
        yield "line %d with a letter more" % number, text_of(before + [line + "x"] + after), number
        yield "ending before line %d" % number, text_of(before), number
        yield "line %d twice" % number, text_of(before + [line, line] + after), number + 1
        if is_event(line) or line.startswith("stop ") or (is_turn(line) and is_event(after[0])):
            yield "without line %d" % number, text_of(before + after), number
        if is_turn(line) and is_event(after[0]):
            word, process, count = line.split(" ")
            longer = "%s %s %d" % (word, process, int(count) + 1)
            yield "line %d with a tick more" % number, text_of(before + [longer] + after), number


class Turn:
    def __init__(self, line, process, ticks):
        self.line, self.process, self.ticks = line, process, ticks
        self.leads_to = {process}
        self.sends, self.takes = set(), set()


def turns_of(lines):
    """The turns of a journal, each with the processes and the calls that its events lead to."""
    turns, makers, senders, owners = [], {}, {}, {}
    for number, line in enumerate(lines, 1):
        word, *rest = line.split(" ")
        if word == "turn":
            turns.append(Turn(number, rest[0], int(rest[1])))
            continue
        # what an event leads to counts for the turn in which it stands
        now = turns[-1] if turns else Turn(0, "0", 0)
        if word == "spawn":
            now.leads_to.add(rest[1])
            makers[rest[1]] = rest[0]
        elif word == "open":
            owners[rest[1]] = rest[0]
        elif word == "send":
            now.sends.add((rest[1], rest[2]))
            senders[rest[1], rest[2]] = rest[0]
        elif word == "take":
            now.takes.add((rest[1], rest[2]))
            now.leads_to.add(rest[0])
        elif word == "kill":
            now.leads_to.add(rest[1])
        elif word == "end" and rest[1] == "ok":
            now.leads_to.add(makers.get(rest[0]))
        elif word == "reply":
            now.leads_to.add(senders.get((rest[1], rest[2])))
        elif word == "throw":
            now.leads_to.add(owners.get(rest[1]))
    return turns


def span_of(lines):
    """The lines that tell the span of a journal, by all chains."""
    turns, best = turns_of(lines), {}
    for place in reversed(range(len(turns))):
        turn = turns[place]
        later = [best[other] for other in range(place + 1, len(turns))
                 if turns[other].process in turn.leads_to or turns[other].takes & turn.sends]
        weight, chain = heaviest(later)
        best[place] = (weight + turn.ticks, [turn.line] + chain)
    weight, chain = heaviest(list(best.values()))
    work = sum(turn.ticks for turn in turns)
    return "work %d\nspan %d\nchain%s\n" % (work, weight, "".join(" %d" % line for line in chain))


def heaviest(chains):
    """The heaviest chain, and among these the least."""
    return min(chains, key=lambda told: (-told[0], told[1]), default=(0, []))


class Reader:
    """Commands of the built program, on a source and a book in files of one folder."""
    def __init__(self, program, folder):
        self.program, self.folder = program, folder

    def file(self, name, text):
        path = os.path.join(self.folder, name)
        with open(path, "w") as file:
            file.write(text)
        return path

    def told(self, source, book, command):
        words = [self.program, source, self.file("book", book), command]
        done = subprocess.run(words, capture_output=True, timeout=SECONDS)
        return done.returncode, done.stdout.decode(), done.stderr.decode()


def checks(reader, case):
    """What each reading of a case's journal answers, beside what it must answer."""
    lines = case["journal"].split("\n")[:-1]
    source = reader.file("source", case["source"])
    same = (0, case["output"], "")
    yield "its own journal", reader.told(source, text_of(lines), "replay"), same
    if lines[0] == USUAL:
        yield "its own journal, of version 1", reader.told(source, text_of(map(plain, lines[1:])), "replay"), same
    for name, book, line in tampered(lines):
        yield name, reader.told(source, book, "replay"), (10, "", "ql: differs at line %d\n" % line)
    if len(lines) <= WALKED:
        yield "its span", reader.told("-", text_of(lines), "span"), (0, span_of(lines), "")


def messages(program, case):
    """How many readings of a case are right, and what is wrong with the others."""
    with tempfile.TemporaryDirectory() as folder:
        found = list(checks(Reader(program, folder), case))
    wrong = ["%s is answered by %r, not by %r" % (name, told, wanted) for name, told, wanted in found if told != wanted]
    return len(found) - len(wrong), wrong


def main():
    program = sys.argv[1] if len(sys.argv) > 1 else os.path.join(TOP, "crates", "ql", "out", "ql")
    with open(CASES) as file:
        cases = [case for case in json.load(file) if case["journal"]]
    passed = failed = 0
    with ThreadPoolExecutor(THREADS) as pool:
        for case, (right, wrong) in zip(cases, pool.map(messages, [program] * len(cases), cases)):
            passed, failed = passed + right, failed + len(wrong)
            for message in wrong:
                print("replays: %s: %s" % (case["name"], message))
    print("%d passed, %d failed" % (passed, failed))
    return 1 if failed or not passed else 0


if __name__ == "__main__":
    sys.exit(main())
