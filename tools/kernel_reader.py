"""A reader of kernels for the tools beside it, which takes it that polypar accepts what it reads.

It shares no code with the program, and is not proved: it goes by docs/LANGUAGE.md. `Kernel(text)` has what a text
declares and its statements, `instances(values)` has all instances as they run, and `ask` brings the program's answers.

A form is a dictionary from names to numbers: those of parameters and of turns, `$1` that of the outermost loop round a
statement, and None, under which the constant stands. A test is `("row", form)`, where the form is to be at least 0, or
`("equality", form)`, where it is to be 0.
"""

import ast
import itertools
import os
import re
import subprocess
from collections import namedtuple

# Why the program keeps an order, or does not tell a read's source, by the word that it gives.
CAUSES = {
    "no row": "no next row is left that keeps all dependences in order, and no scalar item would part any of them",
    "no order": "statements that depend on each other are left at the end, so no scalar item puts them in order",
    "large": "the least next row has a coefficient or a shift above 4096, or the plan's loops a number above 2^40",
    "wide": "a question or an elimination meets a number of more than 128 bits",
    "spent": "a question has made all its moves (--budget), and is not answered",
    "crowded": "an elimination would pair more than 4096 rows",
    "nodes": "the writers that may be its last one take more than 4096 nodes to tell apart",
}

WORD = re.compile(r"\w+|<<=|>>=|<<|>>|\+\+|--|[-+*&|^<>=]=|&&|\S")

# A loop's iterator is the value of `first`, and `stride` more with each turn, as long as the tests hold.
Loop = namedtuple("Loop", "iterator first stride tests body")
# A statement's number counts from 1, its tests are those of all loops and guards round it, and lines are those of the
# whole file. Access 0 is what is written, then come the reads as `deps` counts them, a compound operator's own first.
Statement = namedtuple("Statement", "number loops tests accesses operator text line")
Access = namedtuple("Access", "array subscripts text line")
# Of an instance `iterators` has the values by name, and `cells` an array's name and indices for each access.
Instance = namedtuple("Instance", "number turns iterators cells")
# An item of a schedule has a form for each statement's number; of a scalar one the band is None, and so is `carries`.
Item = namedtuple("Item", "number band carries forms")


class Refused(Exception):
    """The line in which the program refuses a text."""


def ask(words, text):
    """What the program writes to its two streams: that of the variable POLYPAR, else the one beside this folder."""
    beside = os.path.join(os.path.dirname(os.path.realpath(__file__)), "..", "polypar")
    done = subprocess.run([os.environ.get("POLYPAR", beside), *words], input=text.encode("latin-1"),
                          capture_output=True, check=False)
    if done.returncode:
        raise Refused(done.stderr.decode("latin-1").strip().rpartition("\n")[2])
    return done.stdout.decode("latin-1"), done.stderr.decode("latin-1")


def items_of(text):
    """The items of a schedule, or of a report, as the program prints them."""
    items = []
    for number, band, kind, parts in re.findall(r"(?m)^(?:row|scalar) (\d+)(?: band (\d+) (\w+) .*)?: (S1 .*)$", text):
        forms = {int(s): {None: int(shift), **{f"${k}": int(c) for k, c in enumerate(factors.split(), 1)}}
                 for s, factors, shift in re.findall(r"S(\d+) (?:\(([-\d ]*)\) \+ )?(-?\d+)", parts)}
        items.append(Item(int(number), int(band) if band else None, kind == "carries" if band else None, forms))
    return items


def cut(text):
    """The kernel of an input, and what stands behind its line `%%`."""
    return (*re.split(r"(?m)^%%\r?$\n?", text, maxsplit=1), "")[:2]


def plus(f, g, times=1):
    """A form, and another one so many times."""
    return {k: f.get(k, 0) + times * g.get(k, 0) for k in {**f, **g}}


def parsed(text):
    """The tree of an affine expression or a condition: C is Python's syntax there, but for `&&` and some names."""
    return ast.parse(re.sub(r"\b([A-Za-z_])", r"_\1", text).replace("&&", " and ").strip(), mode="eval").body


def form(node, names):
    """The form of an affine expression, where names have these forms."""
    if isinstance(node, (ast.Constant, ast.Name)):
        return {None: node.value} if isinstance(node, ast.Constant) else dict(names[node.id[1:]])
    if isinstance(node, ast.UnaryOp):
        return plus({}, form(node.operand, names), -1)
    f, g = form(node.left, names), form(node.right, names)
    if isinstance(node.op, ast.Mult):
        f, g = (g, f) if any(v for k, v in f.items() if k) else (f, g)
        return plus({}, g, f.get(None, 0))
    return plus(f, g, 1 if isinstance(node.op, ast.Add) else -1)


def tests_of(node, names):
    """The tests of a condition."""
    if isinstance(node, ast.BoolOp):
        return [test for value in node.values for test in tests_of(value, names)]
    f, sign = plus(form(node.left, names), form(node.comparators[0], names), -1), node.ops[0]
    if isinstance(sign, ast.Eq):
        return [("equality", f)]
    f = plus({}, f, -1) if isinstance(sign, (ast.Lt, ast.LtE)) else f
    return [("row", f if isinstance(sign, (ast.LtE, ast.GtE)) else plus(f, {None: -1}))]


def value(form, at):
    """What a form is worth, where names have these values, and None has 1."""
    return sum(number * at[name] for name, number in form.items())


def holds(tests, at):
    """Whether tests hold there."""
    return all(value(f, at) == 0 if kind == "equality" else value(f, at) >= 0 for kind, f in tests)


def walk(items, at, turns=()):
    """The statements in items with the values of names there, as they run."""
    for item in items:
        if isinstance(item, Statement):
            if holds(item.tests, at):
                yield item, turns, at
        else:
            for turn in itertools.count():
                here = {**at, f"${len(turns) + 1}": turn}
                if not holds(item.tests, here):
                    break
                yield from walk(item.body, here, (*turns, turn))


class Kernel:
    """A kernel: its name, its parameters, of each array its type and the forms of its extents, and its statements."""

    def __init__(self, text):
        text = re.sub(r"/\*.*?\*/|//[^\n]*", lambda found: re.sub(r"[^\n]", " ", found[0]), text, flags=re.DOTALL)
        self.source = re.sub(r"(?m)^[ \t\f\r]*#.*$", lambda found: " " * len(found[0]), text)
        self.spans = [found.span() for found in WORD.finditer(self.source)]
        self.words = [self.source[first:end] for first, end in self.spans]
        self.name, self.at, self.statements, self.body = self.words[1], 2, [], []
        declared = re.findall(r"(\w+) (\w+) ?((?:\[[^]]*] ?)*)", self.bracketed())
        self.parameters = [name for _, name, extents in declared if not extents]
        names = {name: {name: 1} for name in self.parameters}
        self.types = {name: kind for kind, name, extents in declared if extents}
        self.extents = {name: [form(parsed(extent), names) for extent in re.findall(r"\[([^]]*)]", extents)]
                        for _, name, extents in declared if extents}
        self.at += 1
        while self.words[self.at] == "int64_t":
            self.at = self.words.index(";", self.at) + 1
        while self.words[self.at] != "}":
            self.item([], [], names, self.body)

    def spelled(self, first, end):
        """How the source spells words, with one blank for each gap."""
        return " ".join(self.source[self.spans[first][0]:self.spans[end - 1][1]].split())

    def bracketed(self):
        """What stands in a bracket, which is passed by."""
        first, depth = self.at + 1, 0
        while depth or self.at < first:
            depth += (self.words[self.at] in "([") - (self.words[self.at] in ")]")
            self.at += 1
        return self.spelled(first, self.at - 1)

    def item(self, loops, tests, names, body):
        """Puts what comes next behind a body."""
        word = self.words[self.at]
        if word in ("for", "if"):
            self.at += 1
            head = self.bracketed()
            if word == "if":
                self.item(loops, tests + tests_of(parsed(head), names), names, body)
            else:
                self.loop(loops, tests, names, head, body)
        elif word == "{":
            self.at += 1
            while self.words[self.at] != "}":
                self.item(loops, tests, names, body)
            self.at += 1
        else:
            self.statement(loops, tests, names, body)

    def loop(self, loops, tests, names, head, body):
        """Puts a loop behind a body."""
        first, second, third = head.split(";")
        name, first = re.sub(r"\bint64_t\b", "", first).split("=")
        name, first, numbers = name.strip(), form(parsed(first), names), re.findall(r"\b[0-9]\w*", third)
        stride = (int(numbers[0], 0) if numbers else 1) * (-1 if "-" in third else 1)
        turn = f"${len(loops) + 1}"
        names = {**names, name: plus(first, {turn: stride})}
        body.append(Loop(name, first, stride, tests_of(parsed(second), names), []))
        self.item([*loops, body[-1]], tests + [("row", {turn: 1})] + body[-1].tests, names, body[-1].body)

    def statement(self, loops, tests, names, body):
        """Puts a statement behind a body, where there is one in front of the semicolon."""
        first, end, accesses, operator = self.at, self.words.index(";", self.at), [], None
        for place in range(first, end):
            array, forms, self.at = self.words[place], [], place + 1
            if array in self.types:
                while self.words[self.at] == "[":
                    forms.append(form(parsed(self.bracketed()), names))
                line = self.source.count("\n", 0, self.spans[place][0]) + 1
                accesses.append(Access(array, forms, self.spelled(place, self.at), line))
                operator = operator or self.words[self.at]
                if place == first and operator != "=":
                    accesses.append(accesses[0])
        self.at = end + 1
        if accesses:
            number, text = len(self.statements) + 1, self.spelled(first, end)
            body.append(Statement(number, loops, tests, accesses, operator, text, accesses[0].line))
            self.statements.append(body[-1])

    def instances(self, values):
        """All instances in the order in which they run, where the parameters have these values."""
        for statement, turns, at in walk(self.body, {None: 1, **values}):
            iterators = {loop.iterator: value(loop.first, at) + loop.stride * turn
                         for loop, turn in zip(statement.loops, turns)}
            cells = [(access.array, tuple(value(subscript, at) for subscript in access.subscripts))
                     for access in statement.accesses]
            yield Instance(statement.number, turns, iterators, cells)
