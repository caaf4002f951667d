#!/usr/bin/env python3
"""Writes worked programs for ql_meaning and ql_compile, from runs that another implementation gave.

    tests/worked.py RUNS WORD=NAME ..

RUNS is a list of runs in JSON, each with a name, the words of the call, the source, and the output and the journal that
it gave. For each run that is NAMEd this prints a definition WORD, as it stands in crates/ql_meaning/specs/Worked.antt:
the source as core, by the slow reader and expander of reference.py, and the schedule that the journal spells. Behind
all of them stand the examples that compute what is told of them, for proofs/Examples.antt of the two crates.
"""
import json
import sys

import reference

CONSTRUCTORS = {"const": "constant", "var": "variable", "if": "conditional", "let": "binding", "prim": "primitive",
                "funcall": "funcall false", "ignored funcall": "funcall true"}


def integer(value):
    return "pos %d" % value if value >= 0 else "negsuc %d" % (-value - 1)


def items(words):
    return "".join("%s ∷ " % word for word in words) + "[]"


class Writer:
    """Terms of a program, whose names are numbered as they first stand in the source."""

    def __init__(self, forms):
        self.names = list(reference.RESERVED)
        for form in forms:
            self.named(form)

    def named(self, form):
        if form[0] == "list":
            for item in form[2]:
                self.named(item)
            if form[3]:
                self.named((form[3][0], None, form[3][1]))
        elif form[0] == "sym" and form[2] not in self.names:
            self.names.append(form[2])

    def number(self, name):
        return self.names.index(name)

    def atom(self, kind, value):
        return "(form.integer (%s))" % integer(value) if kind == "int" else "(form.symbol %d)" % self.number(value)

    def form(self, form):
        if form[0] != "list":
            return "(atom %d %s)" % (form[1], self.atom(form[0], form[2]))
        tail = "(dotted %s)" % self.atom(*form[3]) if form[3] else "proper"
        return "(list %d %s %s)" % (form[1], self.chain("more", [(self.form(item),) for item in form[2]], "none"), tail)

    def chain(self, word, rows, end):
        text = end
        for row in reversed(rows):
            text = "(%s %s %s)" % (word, " ".join(row), text)
        return text

    def name(self, name):
        return "(hidden 0)" if name is None else "(named %d)" % self.number(name)

    def binder(self, pair):
        return "(binder %d %s)" % (pair[0], self.name(pair[1]))

    def binders(self, pairs):
        return "(%s)" % items([self.binder(pair) for pair in pairs])

    def cores(self, nodes):
        return self.chain("and_core", [(self.core(node),) for node in nodes], "no_cores")

    def core(self, node):
        kind, at, rest = node[0], node[1], node[2:]
        return "(core %d (%s))" % (at, " ".join([CONSTRUCTORS.get(kind, kind)] + self.parts(kind, rest)))

    def parts(self, kind, rest):
        if kind == "const":
            return [self.form(rest[0])]
        if kind == "var":
            return [self.name(rest[0])]
        if kind == "setq":
            return [self.name(rest[0]), str(rest[1]), self.core(rest[2])]
        if kind == "defvar":
            return [str(self.number(rest[0])), str(rest[1]), self.core(rest[2])]
        if kind == "progn":
            return [self.cores(rest[0])]
        if kind == "prim":
            return [str(self.number(rest[0])), self.cores(rest[1])]
        if kind == "call":
            return [str(self.number(rest[0])), str(rest[1]), self.cores(rest[2])]
        if kind in ("funcall", "ignored funcall"):
            return [self.core(rest[0]), self.cores(rest[1])]
        if kind == "lambda":
            return [self.binders(rest[0]), self.core(rest[1])]
        if kind == "qlambda":
            return [self.core(rest[0]), self.binders(rest[1]), self.core(rest[2])]
        if kind in ("let", "qlet"):
            bounds = self.chain("and_bound", [(self.binder(pair), self.core(value)) for pair, value in rest[-2]], "no_bounds")
            return [self.core(one) for one in rest[:-2]] + [bounds, self.core(rest[-1])]
        return [self.core(one) for one in rest]

    def program(self, functions, globals_, tops):
        made = ["(function %d %d %d %s %s)" % (at, self.number(name), named, self.binders(params), self.core(inside))
                for at, name, named, params, inside in functions]
        return "program (%s) (%s) %s" % (items(made), items([str(self.number(one)) for one in globals_]), self.cores(tops))


def quoted(text):
    return 'codes "%s"' % text.replace("\\", "\\\\").replace('"', '\\"').replace("\n", "\\n")


def limits(words):
    options = dict(zip(words[1::2], words[2::2]))
    rows = ["%s = %s" % (word, options["--" + word]) for word in ("budget", "cells", "quantum") if "--" + word in options]
    rows += ["policy = %s" % options["--policy"].capitalize()] if "--policy" in options else []
    return "record usual { %s }" % "; ".join(rows) if rows else "usual"


def definition(word, run):
    forms = reference.Reader(run["source"].encode("latin-1")).forms()
    writer = Writer(forms)
    turns = [line.split() for line in run["journal"].split("\n") if line.startswith("turn ")]
    fields = [("program", writer.program(*reference.program(forms))),
              ("names", "reserved ++ " + items([quoted(name) for name in writer.names[len(reference.RESERVED):]])),
              ("limits", limits(run["words"])),
              ("schedule", " ++ ".join("replicate %s %s" % (turn[2], turn[1]) for turn in turns)),
              ("output", quoted(run["output"])),
              ("journal", quoted(run["journal"]))]
    comment = "\n".join("-- " + line for line in run["source"].split("\n"))
    return "%s\nabbrev pub %s : Worked\n%s = record {\n%s}\n" % (comment, word, word, "".join("  %s = %s;\n" % field for field in fields))


def example(word, claim, what):
    return "%s_%s : %s\nunfolding digits\n%s_%s = refl\n" % (word, claim, what % word, word, claim)


def main():
    with open(sys.argv[1]) as runs:
        found = {run["name"]: run for run in json.load(runs)}
    picked = [word.split("=", 1) for word in sys.argv[2:]]
    for word, name in picked:
        print(definition(word, found[name]))
    for word, _ in picked:
        print(example(word, "meant", "IsMeant %s"))
        print(example(word, "planned", "IsPlanned %s"))
        print(example(word, "spelled", "IsSpelled %s"))
    for word, _ in picked:
        print(example(word, "coded", "IsCoded %s"))


if __name__ == "__main__":
    main()
