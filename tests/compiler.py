#!/usr/bin/env python3
"""A plain slow compiler, which knows nothing of the proved one.

It follows docs/LANGUAGE.md alone, a row of the table of code at a time, and writes the listing of a program, or the first
fault of a text, as `ql - - list` does. The reader, the expander and the scope check are those of reference.py.

    tests/compiler.py           compares its listings with those of the built program: of the texts of tests/rows.txt, of
                                the examples, of generated programs, and of long ones about the limit of code
    tests/compiler.py PROGRAM   with those of another program
"""
import concurrent.futures
import glob
import os
import random
import subprocess
import sys

sys.dont_write_bytecode = True
import reference

BUILT = os.path.join(reference.TOP, "crates", "ql", "out", "ql")
MOST = 65535
INSTRUCTIONS = ("lit local boxget globalget boxset globalset branch jump drop slide bind call return close funcall "
                "funcalldrop touch qlet join qlambda catch qcatch exit throw protect leave endclean prim cons print "
                "end").split()


# What occurs free in a node: a set of names, in which None is a hidden variable.

def names_of(binders):
    return {name for _, name in binders}


def free(node):
    kind, rest = node[0], node[2:]
    if kind == "const":
        return set()
    if kind == "var":
        return {rest[0]}
    if kind == "setq":
        return {rest[0]} | free(rest[2])
    if kind == "progn":
        return frees(rest[0])
    if kind == "prim":
        return frees(rest[1])
    if kind == "call":
        return frees(rest[2])
    if kind in ("funcall", "ignored funcall"):
        return free(rest[0]) | frees(rest[1])
    if kind == "lambda":
        return free(rest[1]) - names_of(rest[0])
    if kind == "qlambda":
        return free(rest[0]) | free(rest[2]) - names_of(rest[1])
    if kind in ("let", "qlet"):
        binds, inside = rest[-2:]
        shown = free(inside) - names_of(binder for binder, _ in binds)
        return shown | frees(value for _, value in binds) | frees(rest[:-2])
    return frees(rest)  # if, catch, qcatch, throw, protect, print


def frees(nodes):
    return {name for node in nodes for name in free(node)}


# Code. An instruction is [offset, name, operand ..], and an operand that is a place is a list that gets it later.

def text_of(datum):
    if datum[0] != "list":
        return str(datum[2])
    tail = " . %s" % datum[3][1] if datum[3] else ""
    return "(" + " ".join(text_of(item) for item in datum[2]) + tail + ")"


class Compiler:
    """Variables in sight are listed from the innermost on, each as (binder, slot); `depth` is the number of slots in use."""

    def __init__(self, functions, globals_, stored):
        self.code, self.globals, self.stored = [], globals_, stored
        self.called = {}
        for _, name, _, params, _ in functions:
            self.called.setdefault(name, ([], params))

    def put(self, at, name, *operands):
        self.code.append([at, name] + list(operands))

    def here(self, place):
        place.append(len(self.code))

    def mask(self, binders):
        return sum(2 ** i for i, binder in enumerate(binders) if binder in self.stored)

    def program(self, functions, tops):
        for top in tops:
            self.node(top, [], 0)
            self.put(top[1], "drop")
        self.put(0, "end")
        for at, name, _, params, inside in functions:
            self.here(self.called[name][0])
            self.node(inside, frame(params, []), len(params))
            self.put(at, "return")

    def one_after_another(self, nodes, seen, depth):
        for i, node in enumerate(nodes):
            self.node(node, seen, depth + i)

    def variable(self, at, name, local, box, shared, seen):
        for binder, slot in seen:
            if binder[1] == name:
                return self.put(at, box if binder in self.stored else local, slot)
        self.put(at, shared, self.globals.index(name))

    def closure(self, at, name, params, inside, seen):
        kept = {}
        for wanted in free(inside) - names_of(params):
            for binder, slot in seen:
                if binder[1] == wanted:
                    kept[slot] = binder
                    break
        slots, after = sorted(kept), []
        self.put(at, name, len(params), self.mask(params), len(slots), *slots, after)
        self.node(inside, frame(params, [kept[slot] for slot in slots]), len(params) + len(slots))
        self.put(at, "return")
        self.here(after)

    def under(self, at, binds, inside, seen, depth):
        binders = [binder for binder, _ in binds]
        self.put(at, "bind", len(binds), self.mask(binders))
        bound = [(binder, depth + i) for i, binder in enumerate(binders)]
        self.node(inside, bound[::-1] + seen, depth + len(binds))
        self.put(at, "slide", len(binds))

    def node(self, node, seen, depth):
        kind, at, rest = node[0], node[1], node[2:]
        if kind == "const":
            self.put(at, "lit", text_of(rest[0]))
        elif kind == "var":
            self.variable(at, rest[0], "local", "boxget", "globalget", seen)
        elif kind in ("setq", "defvar"):
            self.node(rest[2], seen, depth)
            self.variable(at, rest[0], "no box", "boxset", "globalset", seen)
        elif kind == "if":
            other, after = [], []
            self.node(rest[0], seen, depth)
            self.put(at, "branch", other)
            self.node(rest[1], seen, depth)
            self.put(at, "jump", after)
            self.here(other)
            self.node(rest[2], seen, depth)
            self.here(after)
        elif kind == "progn":
            for i, one in enumerate(rest[0]):
                if i > 0:
                    self.put(rest[0][i - 1][1], "drop")
                self.node(one, seen, depth)
        elif kind == "let":
            self.one_after_another([value for _, value in rest[0]], seen, depth)
            self.under(at, rest[0], rest[1], seen, depth)
        elif kind == "prim":
            self.one_after_another(rest[1], seen, depth)
            self.put(at, *(["cons"] if rest[0] == "cons" else ["prim", rest[0]]))
        elif kind == "print":
            self.node(rest[0], seen, depth)
            self.put(at, "print")
        elif kind == "call":
            self.one_after_another(rest[2], seen, depth)
            place, params = self.called[rest[0]]
            self.put(at, "call", place, len(rest[2]), self.mask(params))
        elif kind == "funcall":
            self.one_after_another([rest[0]] + rest[1], seen, depth)
            self.put(at, "funcall", len(rest[1]))
            self.put(at, "touch", 1)
        elif kind == "ignored funcall":
            self.one_after_another([rest[0]] + rest[1], seen, depth)
            self.put(at, "funcalldrop", len(rest[1]))
        elif kind == "lambda":
            self.closure(at, "close", rest[0], rest[1], seen)
        elif kind == "qlet":
            starts, touched, bound = [[] for _ in rest[1]], [], []
            self.node(rest[0], seen, depth)
            self.put(at, "qlet", len(starts), *starts, touched, bound)
            for i, (_, value) in enumerate(rest[1]):
                self.here(starts[i])
                self.node(value, seen, depth + i)
                self.put(value[1], "join")
            self.put(at, "jump", bound)
            self.here(touched)
            self.put(at, "touch", len(starts))
            self.here(bound)
            self.under(at, rest[1], rest[2], seen, depth)
        elif kind == "qlambda":
            self.node(rest[0], seen, depth)
            self.closure(at, "qlambda", rest[1], rest[2], seen)
        elif kind in ("catch", "qcatch"):
            after = []
            self.node(rest[0], seen, depth)
            self.put(at, kind, after)
            self.node(rest[1], seen, depth)
            self.put(at, "exit")
            self.here(after)
        elif kind == "throw":
            self.one_after_another(rest, seen, depth)
            self.put(at, "throw")
        else:  # protect
            cleanup = []
            self.put(at, "protect", cleanup)
            self.node(rest[0], seen, depth)
            self.put(at, "leave")
            self.here(cleanup)
            self.node(rest[1], seen, depth + 1)
            self.put(at, "endclean")


def frame(params, kept):
    """What a body sees of its own frame: the parameters, and above them what it keeps of the frame around it."""
    binders = params + kept
    slots = list(enumerate(binders))
    return [(binder, slot) for slot, binder in slots[:len(params)][::-1] + slots[len(params):]]


def listing(text):
    """The listing and the line on standard error."""
    try:
        forms = reference.Reader(text).forms()
    except reference.Fault as fault:
        return "", refused([(fault.at, fault.kind)])
    faults = [fault for form in forms for fault in reference.form_faults(form, 1, True)]
    if faults:
        return "", refused(faults)
    functions, globals_, tops = reference.program(forms)
    checked = reference.scope(functions, globals_, tops)
    if checked.faults:
        return "", refused(checked.faults)
    compiler = Compiler(functions, globals_, checked.stored)
    compiler.program(functions, tops)
    code = compiler.code
    if len(code) > MOST:
        return "", "ql: refused codetoolong at %d\n" % code[MOST][0]
    return "".join(line_of(place, *one) for place, one in enumerate(code)), ""


def line_of(place, at, name, *operands):
    words = [one[0] if isinstance(one, list) else one for one in operands]
    return " ".join(str(word) for word in [place, name, *words]) + " @%d\n" % at


def refused(faults):
    return "ql: %s\n" % reference.first(faults)


# Programs in scope, from a seed.

class Maker:
    LOCALS = ["a", "b", "c", "d", "eager", "list", "i", "j", "k", "l"]
    GLOBALS = ["g", "h", "*total*"]

    def __init__(self, seed):
        self.draw = random.Random(seed)
        self.locals, self.dense = self.draw.sample(self.LOCALS, self.draw.randint(4, 10)), self.draw.choice([0.3, 0.5, 0.7])
        self.shared = self.draw.sample(self.GLOBALS, self.draw.randint(0, 3))
        named = self.draw.sample(["f1", "f2", "f3", "eager", "a"], self.draw.randint(0, 4))
        self.arity = {name: self.draw.choice([0, 1, 1, 2, 2, 3, 3, 16]) for name in named}

    def chance(self, share):
        return self.draw.random() < share

    def made(self, *parts):
        """A list, at times written with a blank or a comment more."""
        gap = "".join(self.draw.choice([" ", " ", "\n", " ; )'\n"]) if self.chance(0.05) else "" for _ in range(2))
        return "(" + gap + " ".join(part for part in parts if part) + ")"

    def text(self):
        tops = [self.made("defvar", name, self.form(2, [])) for name in self.shared]
        for name, count in self.arity.items():
            params = self.distinct(count)
            tops.append(self.made("defun", name, self.made(*params), self.forms(3, params, 0, 3)))
        for _ in range(self.draw.randint(1, 3)):
            names = self.distinct(self.draw.choice([0, 3, 4]))
            inside = self.form(self.draw.randint(1, 5), names)
            tops.append(self.made("let", self.made(*names), inside) if names else inside)
        self.draw.shuffle(tops)
        return ("\n" if self.chance(0.3) else " ").join(tops).encode()

    def distinct(self, count):
        return self.draw.sample(self.locals + ["v%d" % i for i in range(count)] if count > 4 else self.locals, count)

    def some(self):
        return self.distinct(16 if self.chance(0.01) else self.draw.choice([0, 1, 1, 2, 2, 3]))

    def forms(self, depth, seen, least, most):
        return " ".join(self.form(depth, seen) for _ in range(self.draw.randint(least, most)))

    def datum(self, depth):
        if depth == 0 or self.chance(0.3):
            return self.draw.choice(["a", "nil", "()", "t", "-0", "007", "9223372036854775807", "x*", "quote", "'b"])
        parts = [self.datum(depth - 1) for _ in range(self.draw.randint(1, 3))]
        return self.made(*parts + ([" . " + self.datum(depth - 1)] if self.chance(0.4) else []))

    def atom(self, seen):
        if (seen or self.shared) and self.chance(self.dense):
            return self.draw.choice(seen * 2 + self.shared)
        return self.draw.choice(["1", "-7", "nil", "t", "'eager", "'" + self.datum(3), "(quote %s)" % self.datum(2)])

    def binds(self, depth, seen):
        names = self.some()
        return names, self.made(*[self.bind(name, depth, seen) for name in names])

    def bind(self, name, depth, seen):
        return self.draw.choice([name, self.made(name)] + [self.made(name, self.form(depth, seen))] * 4)

    def form(self, depth, seen):
        if depth == 0 or self.chance(0.08):
            return self.atom(seen)
        below = depth - 1
        op = self.draw.choice("setq setq if progn progn let let let* qlet qlet lambda lambda lambda qlambda qlambda catch "
                              "qcatch throw unwind-protect unwind-protect funcall funcall print + - * truncate < <= >= = eq "
                              "cons car cdr null not list and or or or cond cond when unless call call call ignored".split())
        one = lambda: self.form(below, seen)
        if op == "setq":
            known = seen * 2 + self.shared
            return self.made("setq", self.draw.choice(known), one()) if known else one()
        if op in ("let", "let*"):
            return self.let(op, below, seen)
        if op == "qlet":
            names, binds = self.binds(below, seen)
            return self.made(op, self.proposition(below, seen), binds, self.forms(below, seen + names, 0, 3))
        if op in ("lambda", "qlambda"):
            names = self.some()
            prop = self.proposition(below, seen) if op == "qlambda" else ""
            return self.made(op, prop, self.made(*names), self.forms(below, seen + names, 0, 3))
        if op == "call":
            if not self.arity:
                return one()
            name = self.draw.choice(list(self.arity))
            count = self.arity[name]
            return self.made(name, self.forms(0 if count > 4 else below, seen, count, count))
        if op == "ignored":
            inside = self.made("funcall", one(), self.forms(below, seen, 0, 2))
            wrap = self.draw.choice(["progn", "and", "or", "let ()", "+", "when 1"]) if self.chance(0.4) else ""
            return self.made("progn", self.made(wrap, inside) if wrap else inside, one())
        if op == "cond":
            return self.made(op, *[self.made(self.forms(below, seen, 1, 3)) for _ in range(self.draw.randint(0, 3))])
        least, most = {"if": (2, 3), "throw": (2, 2), "unwind-protect": (2, 4), "-": (1, 3), "+": (0, 4), "*": (0, 4),
                       "list": (0, 4), "and": (0, 3), "or": (1, 4), "progn": (0, 4)}.get(op, (1, 3))
        if op in reference.ONE or op in ("print", "not"):
            most = 1
        elif op in reference.TWO and op not in ("+", "-", "*") or op in ("<=", ">="):
            least = most = 2
        return self.made(op, self.forms(below, seen, least, most))

    def proposition(self, depth, seen):
        if self.chance(0.5):
            return self.draw.choice(["t", "nil", "'eager", "'eager"])
        return self.form(self.draw.choice([0, depth]), seen)

    def let(self, op, depth, seen):
        if op == "let":
            names, binds = self.binds(depth, seen)
            return self.made(op, binds, self.forms(depth, seen + names, 0, 3))
        names, binds = [], []
        for _ in range(self.draw.randint(0, 4)):
            name = self.draw.choice(self.locals)
            binds.append(self.bind(name, depth, seen + names))
            names.append(name)
        return self.made(op, self.made(*binds), self.forms(depth, seen + names, 0, 3))


def long_texts(draw):
    """Programs with as much code as there may be, with one more, or with so much that the limit falls anywhere at the end."""
    found = [b"1 " * 32767, b"1 " * 32768, b"1 " * 32767 + b"(progn 1)"]
    while len(found) < 30:
        text = Maker(draw.random()).text()
        lines = listing(text)[0].count("\n")
        before = MOST - lines + draw.choice([0, 1, draw.randint(1, lines)])
        odd = b"(print 1) " if before % 2 else b""
        found.append(odd + b"1 " * ((before - (3 if odd else 0)) // 2) + text)
    return found


def said_by(program, text):
    said = subprocess.run([program, "-", "-", "list"], input=text, capture_output=True)
    return said.stdout.decode(), said.stderr.decode(), said.returncode


def differing(wanted, said):
    """What two answers say from the line before the first one that differs, in ten lines each."""
    both = [(out + error).splitlines() + ["status %d" % status] for out, error, status in (wanted, said)]
    first = next((i for i, (one, other) in enumerate(zip(*both)) if one != other), 0)
    return ["".join("    %s\n" % line for line in lines[max(first - 1, 0):][:10]) for lines in both]


def main():
    program = sys.argv[1] if len(sys.argv) > 1 else BUILT
    texts = [text for text, _ in reference.rows()]
    for path in sorted(glob.glob(os.path.join(reference.TOP, "examples", "*.ql"))):
        with open(path, "rb") as file:
            texts.append(file.read())
    texts += reference.generated(9, 1000) + [Maker(seed).text() for seed in range(4000)] + long_texts(random.Random(1))
    wanted = [(out, error, 1 if error else 0) for out, error in map(listing, texts)]
    with concurrent.futures.ThreadPoolExecutor(os.cpu_count()) as pool:
        said = list(pool.map(lambda text: said_by(program, text), texts))
    wrong = [row for row in zip(texts, wanted, said) if row[1] != row[2]]
    for text, wanted_one, said_one in sorted(wrong, key=lambda row: len(row[0]))[:3]:
        print("compiler: of %r is wanted\n%sand said\n%s" % (text[-2000:], *differing(wanted_one, said_one)))
    listed = [out for out, error, _ in wanted if not error]
    used = {line.split()[1] for out in listed for line in out.splitlines()}
    print("compiler: %d texts, of which %d are refused: %d listings of %d instructions, %d of the %d kinds: %d differ" % (
        len(texts), len(texts) - len(listed), len(listed), sum(out.count("\n") for out in listed), len(used),
        len(INSTRUCTIONS), len(wrong)))
    return bool(wrong) or used != set(INSTRUCTIONS)


if __name__ == "__main__":
    sys.exit(main())
