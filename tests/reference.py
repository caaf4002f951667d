#!/usr/bin/env python3
"""A plain slow reader, expander and scope check, which know nothing of the proved ones.

It is written from docs/LANGUAGE.md alone, one rule at a time, and answers for each text its first fault or the program
that it expands to, as the program `ql_rows` does.

    tests/reference.py          compares the stored run of ql_rows with what it answers itself, and then the built program
                                on all texts of up to five of ten bytes and on 20,000 generated ones
    tests/reference.py --write  makes the stored run anew, of tests/rows.txt and of 1,000 generated texts
"""
import itertools
import os
import random
import subprocess
import sys

TOP = os.path.dirname(os.path.dirname(os.path.abspath(__file__)))
CRATE = os.path.join(TOP, "crates", "ql_rows")
ROWS = os.path.join(TOP, "tests", "rows.txt")
ALPHABET = b"()'.;a1- \n"

KINDS = ("badbyte strayclose baddot badnumber longname toodeep toolong unfinished badshape badtop reservedname unbound "
         "nofunction twice wrongcount shadow toomany").split()
RESERVED = ("nil t quote eager defun defvar lambda qlambda setq if progn let qlet catch qcatch throw unwind-protect funcall "
            "print cons car cdr eq null not atom consp numberp symbolp + - * truncate rem = < > <= >= cond and or when unless "
            "let* list").split()
ONE = "car cdr null atom consp numberp symbolp".split()
TWO = "cons eq truncate rem = < > + - *".split()
BLANKS, DIGITS = b" \t\n\r", b"0123456789"
ATOM = frozenset(b"abcdefghijklmnopqrstuvwxyzABCDEFGHIJKLMNOPQRSTUVWXYZ0123456789!$%&*+-/:<=>?@^_~")


sys.setrecursionlimit(20000)


class Fault(Exception):
    def __init__(self, kind, at):
        self.kind, self.at = kind, at


# Reading. A form is ("int", at, value), ("sym", at, name) or ("list", at, items, tail), where a tail is None or an atom.

class Reader:
    def __init__(self, text):
        self.text, self.at = text, 0

    def gap(self):
        while self.at < len(self.text):
            byte = self.text[self.at]
            if byte == ord(";"):
                while self.at < len(self.text) and self.text[self.at] != 10:
                    self.at += 1
            elif byte in BLANKS:
                self.at += 1
            else:
                return byte
        return None

    def needed(self):
        byte = self.gap()
        if byte is None:
            raise Fault("unfinished", len(self.text))
        return byte

    def forms(self):
        found = []
        while self.gap() is not None:
            found.append(self.form(0))
        return found

    def form(self, depth):
        byte, at = self.needed(), self.at
        if byte in ATOM:
            return self.atom()
        if byte == ord("("):
            self.deeper(depth)
            return self.list(at, depth + 1)
        if byte == ord("'"):
            self.deeper(depth)
            return ("list", at, [("sym", at, "quote"), self.form(depth + 1)], None)
        raise Fault({ord(")"): "strayclose", ord("."): "baddot"}.get(byte, "badbyte"), at)

    def deeper(self, depth):
        if depth == 200:
            raise Fault("toodeep", self.at)
        self.at += 1

    def atom(self):
        at, text = self.at, self.text
        signed = text[at] in b"+-"
        first = at + 1 if signed else at
        number = first < len(text) and text[first] in DIGITS
        end = at
        while end < len(text) and text[end] in ATOM:
            if number and end >= first:
                if text[end] not in DIGITS:
                    raise Fault("badnumber", end)
                if not -2 ** 63 <= int(text[at:end + 1]) < 2 ** 63:
                    raise Fault("badnumber", end)
            elif end - at == 64:
                raise Fault("longname", end)
            end += 1
        if end < len(text) and text[end] == ord("."):
            raise Fault("baddot", end)
        self.at = end
        word = text[at:end].decode()
        return ("int", at, int(word)) if number else ("sym", at, word)

    def list(self, at, depth):
        items = []
        while True:
            byte = self.needed()
            if byte == ord(")"):
                self.at += 1
                return ("list", at, items, None) if items else ("sym", at, "nil")
            if byte == ord("."):
                return self.dotted(at, depth, items)
            items.append(self.form(depth))

    def dotted(self, at, depth, items):
        if not items:
            raise Fault("baddot", self.at)
        self.at += 1
        if self.at == len(self.text):
            raise Fault("unfinished", self.at)
        if self.text[self.at] not in BLANKS + b"(';":
            byte = self.text[self.at]
            raise Fault("baddot" if byte in ATOM or byte in b".)" else "badbyte", self.at)
        if self.needed() == ord(")"):
            raise Fault("baddot", self.at)
        tail = self.form(depth)
        byte = self.needed()
        if byte != ord(")"):
            raise Fault("baddot" if byte in ATOM or byte in b".('" else "badbyte", self.at)
        self.at += 1
        if tail[0] == "list":
            return ("list", at, items + tail[2], tail[3])
        return ("list", at, items, None if tail[2] == "nil" else (tail[0], tail[2]))


# The faults of forms: a list of (offset, kind).

def is_sym(form, name=None):
    return form[0] == "sym" and (name is None or form[2] == name)


def proper(form):
    """The items of a proper list, which are none for nil."""
    if is_sym(form, "nil"):
        return []
    return form[2] if form[0] == "list" and form[3] is None else None


def is_constant(name):
    return name in ("nil", "t")


def shape(op, parts):
    """Whether so many parts fit, but for names, bindings and clauses."""
    n = len(parts)
    if op in ("nil", "t"):
        return False
    if op == "quote" or op in ONE or op in ("not", "print"):
        return n == 1
    if op in ("+", "*", "and", "or", "list", "cond", "progn") or op not in RESERVED or op == "eager":
        return True
    if op == "-":
        return n >= 1
    if op in TWO or op in ("<=", ">=", "throw"):
        return n == 2
    if op == "if":
        return n in (2, 3)
    if op in ("setq", "defvar"):
        return n == 2 and is_sym(parts[0])
    if op in ("let", "let*"):
        return n >= 1 and proper(parts[0]) is not None
    if op == "qlet":
        return n >= 2 and proper(parts[1]) is not None
    if op == "lambda":
        return n >= 1
    if op == "qlambda":
        return n >= 2
    if op == "defun":
        return n >= 2 and is_sym(parts[0])
    if op == "unwind-protect":
        return n >= 2
    return n >= 1  # catch, qcatch, funcall, when, unless


def is_sugar(op, parts):
    if op in ("+", "-", "*"):
        return len(parts) != 2
    return op in ("not", "<=", ">=", "list", "and", "or", "when", "unless", "cond", "let*")


def name_faults(form):
    return [(form[1], "reservedname")] if is_constant(form[2]) else []


def parameter_faults(form):
    items = proper(form)
    if items is None or any(not is_sym(item) for item in items):
        return [(form[1], "badshape")]
    return [fault for item in items for fault in ([(item[1], "badshape")] if item[2][0] == "&" else name_faults(item))]


def form_faults(form, level, top):
    at = form[1]
    if level > 400:
        return [(at, "badshape")]
    if form[0] != "list":
        return []
    items = proper(form)
    if items is None or not is_sym(items[0]):
        return [(at, "badshape")]
    op, parts = items[0][2], items[1:]
    found = [(at, "badtop")] if op in ("defun", "defvar") and not top else []
    if not shape(op, parts):
        return found + [(at, "badshape")]
    if op == "quote":
        return found
    under = level + 1
    if is_sugar(op, parts):
        count = len(proper(parts[0])) + len(parts) - 1 if op == "let*" else len(parts)
        under = level + 2 * count + 2
    return found + parts_faults(op, parts, under)


def parts_faults(op, parts, under):
    found = []
    if op in ("setq", "defvar"):
        found += name_faults(parts[0])
        parts = parts[1:]
    elif op == "defun":
        if parts[0][2] in RESERVED and parts[0][2] != "eager":
            found.append((parts[0][1], "reservedname"))
        found += parameter_faults(parts[1])
        parts = parts[2:]
    elif op in ("lambda", "qlambda"):
        found += parameter_faults(parts[op == "qlambda"])
        parts = parts[:op == "qlambda"] + parts[(op == "qlambda") + 1:]
    elif op in ("let", "let*", "qlet"):
        for bind in proper(parts[op == "qlet"]):
            found += bind_faults(bind, under)
        parts = parts[:op == "qlet"] + parts[(op == "qlet") + 1:]
    elif op == "cond":
        for clause in parts:
            found += clause_faults(clause, under)
        parts = []
    for part in parts:
        found += form_faults(part, under, False)
    return found


def bind_faults(bind, level):
    if level > 400:
        return [(bind[1], "badshape")]
    if is_sym(bind):
        return name_faults(bind)
    items = proper(bind)
    if not items or not is_sym(items[0]) or len(items) > 2:
        return [(bind[1], "badshape")]
    found = name_faults(items[0])
    return found + (form_faults(items[1], level + 1, False) if len(items) == 2 else [])


def clause_faults(clause, level):
    items = proper(clause)
    if level > 400 or not items:
        return [(clause[1], "badshape")]
    return [fault for item in items for fault in form_faults(item, level + 1, False)]


# Expansion, a row of the tables at a time. Core is (kind, at, ..), and a variable is a name or None for a hidden one.

def sym(at, name):
    return ("sym", at, name)


def made(at, name, *parts):
    return ("list", at, [sym(at, name)] + list(parts), None)


def number(at, value):
    return ("int", at, value)


def rewritten(form):
    """One step of sugar, or None."""
    at, op, parts = form[1], form[2][0][2], form[2][1:]
    if op in ("+", "*", "-") and len(parts) != 2:
        neutral = number(at, 1 if op == "*" else 0)
        if not parts:
            return neutral
        if len(parts) == 1:
            return made(at, op, neutral, parts[0])
        return made(at, op, made(at, op, *parts[:2]), *parts[2:])
    if op == "not":
        return made(at, "null", parts[0])
    if op in ("<=", ">="):
        return made(at, "null", made(at, ">" if op == "<=" else "<", *parts))
    if op == "list":
        return made(at, "cons", parts[0], made(at, "list", *parts[1:])) if parts else sym(at, "nil")
    if op == "and":
        if len(parts) < 2:
            return parts[0] if parts else sym(at, "t")
        return made(at, "if", parts[0], made(at, "and", *parts[1:]), sym(at, "nil"))
    if op == "or" and len(parts) < 2:
        return parts[0] if parts else sym(at, "nil")
    if op == "when":
        return made(at, "if", parts[0], made(at, "progn", *parts[1:]), sym(at, "nil"))
    if op == "unless":
        return made(at, "if", parts[0], sym(at, "nil"), made(at, "progn", *parts[1:]))
    if op == "cond":
        if not parts:
            return sym(at, "nil")
        rest = made(at, "cond", *parts[1:])
        test, forms = parts[0][2][0], parts[0][2][1:]
        return made(at, "if", test, made(at, "progn", *forms), rest) if forms else made(at, "or", test, rest)
    if op == "let*":
        binds = proper(parts[0])
        if len(binds) < 2:
            return made(at, "let", ("list", at, binds, None) if binds else sym(at, "nil"), *parts[1:])
        return made(at, "let", ("list", at, binds[:1], None), made(at, "let*", ("list", at, binds[1:], None), *parts[1:]))
    return None


def core(form, dropped=False):
    at = form[1]
    if form[0] == "int" or is_sym(form) and is_constant(form[2]):
        return ("const", at, form)
    if form[0] == "sym":
        return ("var", at, form[2])
    step = rewritten(form)
    if step is not None:
        return core(step, dropped)
    op, parts = form[2][0][2], form[2][1:]
    if op == "quote":
        return ("const", at, parts[0])
    if op == "setq":
        return ("setq", at, parts[0][2], parts[0][1], core(parts[1]))
    if op == "if":
        return ("if", at, core(parts[0]), core(parts[1]), core(parts[2]) if len(parts) == 3 else ("const", at, sym(at, "nil")))
    if op == "progn":
        return body(at, parts)
    if op == "or":
        hidden = ("var", at, None)
        rest = core(made(at, "or", *parts[1:]))
        return ("let", at, [((at, None), core(parts[0]))], ("if", at, hidden, hidden, rest))
    if op == "let":
        return ("let", at, binds_of(parts[0]), body(at, parts[1:]))
    if op == "qlet":
        return ("qlet", at, core(parts[0]), binds_of(parts[1]), body(at, parts[2:]))
    if op == "lambda":
        return ("lambda", at, params_of(parts[0]), body(at, parts[1:]))
    if op == "qlambda":
        return ("qlambda", at, core(parts[0]), params_of(parts[1]), body(at, parts[2:]))
    if op in ("catch", "qcatch", "unwind-protect"):
        return ("protect" if op == "unwind-protect" else op, at, core(parts[0]), body(at, parts[1:]))
    if op == "throw":
        return ("throw", at, core(parts[0]), core(parts[1]))
    if op == "print":
        return ("print", at, core(parts[0]))
    if op == "funcall":
        return ("ignored funcall" if dropped else "funcall", at, core(parts[0]), [core(part) for part in parts[1:]])
    if op in ONE or op in TWO:
        return ("prim", at, op, [core(part) for part in parts])
    return ("call", at, op, form[2][0][1], [core(part) for part in parts])


def body(at, forms):
    if not forms:
        return ("const", at, sym(at, "nil"))
    if len(forms) == 1:
        return core(forms[0])
    return ("progn", at, [core(form, True) for form in forms[:-1]] + [core(forms[-1])])


def params_of(form):
    return [(item[1], item[2]) for item in proper(form)]


def binds_of(form):
    found = []
    for bind in proper(form):
        items = [bind] if is_sym(bind) else bind[2]
        at, name = items[0][1], items[0][2]
        found.append(((at, name), core(items[1]) if len(items) == 2 else ("const", at, sym(at, "nil"))))
    return found


def program(forms):
    functions, globals_, tops = [], [], []
    for form in forms:
        op = form[2][0][2] if form[0] == "list" else None
        if op == "defun":
            name, params = form[2][1], form[2][2]
            functions.append((form[1], name[2], name[1], params_of(params), body(form[1], form[2][3:])))
        elif op == "defvar":
            globals_.append(form[2][1][2])
            tops.append(("defvar", form[1], form[2][1][2], form[2][1][1], core(form[2][2])))
        else:
            tops.append(core(form))
    return functions, globals_, tops


# Scope. The binders above a place are listed from the innermost on, each as (offset, name).

class Scope:
    def __init__(self, functions, globals_):
        self.faults, self.stored, self.globals = [], set(), set(globals_)
        self.functions = {}
        for at, name, named, params, _ in functions:
            if name in self.functions:
                self.found(named, "twice")
            self.functions.setdefault(name, len(params))

    def found(self, at, kind):
        self.faults.append((at, kind))

    def used(self, name, at, above):
        if name is not None and name not in self.globals and all(name != other for _, other in above):
            self.found(at, "unbound")

    def binders(self, binders):
        seen = set()
        for place, (at, name) in enumerate(binders):
            if place == 16:
                self.found(at, "toomany")
            if name is None:
                continue
            if name in seen:
                self.found(at, "twice")
            if name in self.globals:
                self.found(at, "shadow")
            seen.add(name)

    def all(self, cores, above):
        for one in cores:
            self.core(one, above)

    def under(self, binders, inside, above):
        self.binders(binders)
        self.core(inside, list(reversed(binders)) + above)

    def core(self, node, above):
        kind, at = node[0], node[1]
        if kind == "var":
            self.used(node[2], at, above)
        elif kind == "setq":
            self.used(node[2], node[3], above)
            for binder in above:
                if binder[1] == node[2]:
                    self.stored.add(binder)
                    break
            self.core(node[4], above)
        elif kind in ("if", "catch", "qcatch", "throw", "protect"):
            self.all(node[2:], above)
        elif kind in ("progn", "print"):
            self.all(node[2] if kind == "progn" else node[2:], above)
        elif kind == "prim":
            self.all(node[3], above)
        elif kind == "call":
            if node[2] not in self.functions:
                self.found(node[3], "nofunction")
            elif self.functions[node[2]] != len(node[4]):
                self.found(node[3], "wrongcount")
            self.all(node[4], above)
        elif kind in ("funcall", "ignored funcall"):
            self.core(node[2], above)
            if len(node[3]) > 16:
                self.found(node[3][16][1], "toomany")
            self.all(node[3], above)
        elif kind == "lambda":
            self.under(node[2], node[3], above)
        elif kind == "qlambda":
            self.core(node[2], above)
            self.under(node[3], node[4], above)
        elif kind in ("let", "qlet"):
            if kind == "qlet":
                self.core(node[2], above)
            binds, inside = node[-2:]
            self.all([value for _, value in binds], above)
            self.under([binder for binder, _ in binds], inside, above)
        elif kind == "defvar":
            self.core(node[4], above)


def scope(functions, globals_, tops):
    checked = Scope(functions, globals_)
    seen = set()
    for top in tops:
        if top[0] == "defvar":
            if top[2] in seen:
                checked.found(top[3], "twice")
            seen.add(top[2])
    for _, _, _, params, inside in functions:
        checked.under(params, inside, [])
    checked.all(tops, [])
    return checked


# Texts of programs. A variable that some setq names has a `!` behind its binder.

def dump(functions, globals_, tops, stored):
    def variable(name, at):
        return "%s@%d" % ("?" if name is None else name, at)

    def binder(pair):
        return variable(pair[1], pair[0]) + ("!" if pair in stored else "")

    def params(pairs):
        return "[" + " ".join(binder(pair) for pair in pairs) + "]"

    def atom(form):
        return "%s@%d" % (form[2], form[1])

    def datum(form):
        if form[0] != "list":
            return atom(form)
        tail = " . %s" % form[3][1] if form[3] else ""
        return "(" + " ".join(datum(item) for item in form[2]) + tail + ")@%d" % form[1]

    def one(node):
        kind, at, rest = node[0], node[1], node[2:]
        if kind == "const":
            plain = rest[0][0] != "list" and rest[0][1] == at
            return datum(rest[0]) if plain else "quote@%d %s" % (at, datum(rest[0]))
        if kind == "var":
            return "var " + variable(rest[0], at)
        return "%s@%d(%s)" % (kind, at, " ".join(parts(kind, rest)))

    def parts(kind, rest):
        if kind in ("setq", "defvar"):
            return [variable(rest[0], rest[1]), one(rest[2])]
        if kind == "progn":
            return [one(node) for node in rest[0]]
        if kind == "prim":
            return [rest[0]] + [one(node) for node in rest[1]]
        if kind == "call":
            return [variable(rest[0], rest[1])] + [one(node) for node in rest[2]]
        if kind in ("funcall", "ignored funcall"):
            return [one(rest[0])] + [one(node) for node in rest[1]]
        if kind == "lambda":
            return [params(rest[0]), one(rest[1])]
        if kind == "qlambda":
            return [one(rest[0]), params(rest[1]), one(rest[2])]
        if kind in ("let", "qlet"):
            head = [one(rest[0])] if kind == "qlet" else []
            return head + ["[%s %s]" % (binder(pair), one(value)) for pair, value in rest[-2]] + [one(rest[-1])]
        return [one(node) for node in rest]

    text = "".join("defun@%d(%s %s %s);" % (at, variable(name, named), params(pairs), one(inside))
                   for at, name, named, pairs, inside in functions)
    text += "".join("global %s;" % name for name in globals_)
    return text + "".join(one(top) + ";" for top in tops)


def first(faults):
    at, kind = min(faults, key=lambda fault: (fault[0], KINDS.index(fault[1])))
    return "refused %s at %d" % (kind, at)


def answer(text):
    try:
        forms = Reader(text).forms()
    except Fault as fault:
        return first([(fault.at, fault.kind)])
    faults = [fault for form in forms for fault in form_faults(form, 1, True)]
    if faults:
        return first(faults)
    functions, globals_, tops = program(forms)
    checked = scope(functions, globals_, tops)
    if checked.faults:
        return "%s: %s" % (first(checked.faults), dump(functions, globals_, tops, ()))
    return dump(functions, globals_, tops, checked.stored)


# Small texts from a seed: mostly of the right shape, some with something wrong.

NAMES = ["a", "b", "c", "eager", "&a", "nil", "t", "car"]
OPERATORS = [word for word in RESERVED if word not in ("nil", "t")]


def small_text(draw):
    forms = [definition(draw) if draw.random() < 0.3 else top_form(draw) for _ in range(draw.randint(1, 3))]
    if draw.random() < 0.8:
        forms += ["(defun f (a) a)", "(defun g () 1)"]
    return " ".join(forms)


def top_form(draw):
    form = small_form(draw, 3)
    return "(let (a b c) %s)" % form if draw.random() < 0.85 else form


def name(draw):
    return draw.choice(NAMES[:3] if draw.random() < 0.93 else NAMES)


def definition(draw):
    if draw.random() < 0.3:
        return "(defvar %s %s)" % (draw.choice("abg"), small_form(draw, 1))
    return "(defun %s %s %s)" % (draw.choice(["h", "i", "h", "eager", "f"]), names(draw), small_forms(draw, 2, 0, 2))


def names(draw):
    if draw.random() < 0.03:
        return draw.choice(["5", "x", "(a . b)", "t", "(1)"])
    count = draw.choice([0, 1, 1, 2, 2, 3])
    picked = draw.sample("abc", count) if draw.random() < 0.9 else [name(draw) for _ in range(count)]
    return "(%s)" % " ".join(picked)


def small_forms(draw, depth, least, most):
    return " ".join(small_form(draw, depth) for _ in range(draw.randint(least, most)))


def small_binds(draw, depth):
    if draw.random() < 0.03:
        return draw.choice(["5", "x", "(a . b)", "nil", "((a . 1))", "(5)"])
    binds = []
    for one in draw.sample("abc", draw.choice([0, 1, 1, 2])) if draw.random() < 0.93 else [name(draw), name(draw)]:
        binds.append(draw.choice([one, "(%s)" % one, "(%s %s)" % (one, small_form(draw, depth))]))
    return "(%s)" % " ".join(binds)


def small_form(draw, depth):
    if depth == 0 or draw.random() < 0.25:
        return draw.choice(["1", "-2", "nil", "t", "'a", "'(a b . 1)", "()", "a", "b", "c", "a", "b", "c", "a"])
    op = draw.choice(OPERATORS + ["f", "g", "f", "setq", "funcall", "let", "qlet", "unwind-protect", "let", "lambda", "setq"])
    deeper = depth - 1
    if draw.random() < 0.03:
        return "(%s %s)" % (op, small_forms(draw, deeper, 0, 3))
    if op in ("setq", "defvar"):
        return "(setq %s %s)" % (name(draw), small_form(draw, deeper))
    if op in ("let", "let*"):
        return "(%s %s %s)" % (op, small_binds(draw, deeper), small_forms(draw, deeper, 0, 2))
    if op == "qlet":
        return "(qlet %s %s %s)" % (small_form(draw, 0), small_binds(draw, deeper), small_forms(draw, deeper, 0, 2))
    if op == "lambda":
        return "(lambda %s %s)" % (names(draw), small_forms(draw, deeper, 0, 2))
    if op == "qlambda":
        return "(qlambda %s %s %s)" % (small_form(draw, 0), names(draw), small_forms(draw, deeper, 0, 2))
    if op == "cond":
        return "(cond %s)" % " ".join("(%s)" % small_forms(draw, deeper, 1, 3) for _ in range(draw.randint(0, 3)))
    if op == "quote":
        return "(quote %s)" % small_form(draw, deeper)
    if op in ONE or op in ("not", "print"):
        return "(%s %s)" % (op, small_form(draw, deeper))
    if op in ("+", "-", "*"):
        return "(%s %s)" % (op, small_forms(draw, deeper, 1, 4))
    if op in TWO or op in ("<=", ">=", "throw"):
        return "(%s %s)" % (op, small_forms(draw, deeper, 2, 2))
    if op == "if":
        return "(if %s)" % small_forms(draw, deeper, 2, 3)
    if op == "unwind-protect":
        return "(unwind-protect %s)" % small_forms(draw, deeper, 2, 3)
    if op in ("and", "or", "list", "progn"):
        return "(%s %s)" % (op, small_forms(draw, deeper, 0, 3))
    if op in ("f", "defun", "eager"):
        return "(f %s)" % small_forms(draw, deeper, 1, 1 if draw.random() < 0.9 else 2)
    if op == "g":
        return "(g)"
    return "(%s %s)" % (op, small_forms(draw, deeper, 1, 3))


# The stored run. Each text is a line, in which a backslash and two hexadecimal digits are a byte.

def line_of(text):
    return "".join(chr(byte) if 32 <= byte < 127 and byte != 92 else "\\%02x" % byte for byte in text)


def text_of(line):
    found, at = bytearray(), 0
    while at < len(line):
        if line[at] == "\\":
            found.append(int(line[at + 1:at + 3], 16))
            at += 3
        else:
            found.append(ord(line[at]))
            at += 1
    return bytes(found)


def rows():
    """The texts of rows.txt, a line each; where a line goes on with ` => ANSWER`, that is the answer."""
    with open(ROWS) as file:
        for line in file.read().splitlines():
            text, _, wanted = line.partition("  =>  ")
            if not line.startswith("#"):
                yield text_of(text), wanted


def generated(seed, count):
    draw = random.Random(seed)
    return [small_text(draw).encode() for _ in range(count)]


def stored_texts():
    found = []
    for text, wanted in rows():
        if wanted and answer(text) != wanted:
            sys.exit("the row %r is answered %r" % (text, answer(text)))
        found.append(text)
    return found + generated(7, 1000)


def more_texts():
    """All texts of up to five of ten bytes, and many from another seed."""
    short = [bytes(text) for size in range(6) for text in itertools.product(ALPHABET, repeat=size)]
    return short + generated(8, 20000)


def run_of(texts):
    given = "".join(line_of(text) + "\n" for text in texts)
    return given, "".join(answer(text) + "\n" for text in texts)


def main():
    given, wanted = run_of(stored_texts())
    paths = os.path.join(CRATE, "stdin"), os.path.join(CRATE, "stdout")
    if sys.argv[1:] == ["--write"]:
        for path, text in zip(paths, (given, wanted)):
            with open(path, "w") as file:
                file.write(text)
        return 0
    kept = [open(path).read() for path in paths] == [given, wanted]
    print("reference: the stored run of ql_rows is %s" % ("that of the reference" if kept else "ANOTHER"))
    texts = more_texts()
    given, wanted = run_of(texts)
    said = subprocess.run([os.path.join(CRATE, "out", "ql_rows")], input=given, stdout=subprocess.PIPE, text=True).stdout
    wrong = [row for row in zip(texts, wanted.split("\n"), said.split("\n")) if row[1] != row[2]]
    refused = sum(line.startswith("refused") for line in wanted.splitlines())
    print("reference: %d texts, of which %d are refused: %d answers differ" % (len(texts), refused, len(wrong)))
    for text, wanted_one, said_one in wrong[:3]:
        print("reference: %r is %s, and not %s" % (text, wanted_one, said_one))
    return not kept or said != wanted


if __name__ == "__main__":
    sys.exit(main())
