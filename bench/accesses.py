"""The accesses of a kernel as isl reads them: its reads, its writes, and the order of both.

A kernel is taken apart by its tokens; its forms are worked out by Python's own arithmetic over `Form`. It has to be one
that polypar reads: nothing is checked here.
"""

import re

TOKEN = re.compile(r"\w+|&&|<<=|>>=|<<|>>|[-+*&|^<>=]=|\+\+|--|\S")
SKIPPED = re.compile(r"/\*.*?\*/|//[^\n]*|^[ \t]*#[^\n]*", re.S | re.M)
NUMBER = re.compile(r"\b(0[xX][0-9a-fA-F]+|\d+)[uUlL]*\b")


class Form:
    """An affine form: a coefficient for each name, the constant at the name 1. Comparing two puts what is not negative
    into `rows`."""

    rows = []

    def __init__(self, terms):
        self.terms = terms

    def __add__(self, other):
        names = {**self.terms, **other.terms}
        return Form({name: self.terms.get(name, 0) + other.terms.get(name, 0) for name in names})

    def __mul__(self, other):
        factor, form = (self, other) if set(self.terms) <= {1} else (other, self)
        return Form({name: factor.terms.get(1, 0) * value for name, value in form.terms.items()})

    def __neg__(self):
        return number(-1) * self

    def __pos__(self):
        return self

    def __sub__(self, other):
        return self + -other

    def __ge__(self, other):
        Form.rows.append(self - other)
        return True

    def __gt__(self, other):
        return self >= other + number(1)

    def __le__(self, other):
        return other >= self

    def __lt__(self, other):
        return other > self

    def __eq__(self, other):
        return self >= other and other >= self

    def __str__(self):
        return " + ".join(f"{value}*{name}" if name != 1 else str(value) for name, value in self.terms.items()) or "0"


def number(value):
    return Form({1: value})


class Reader:
    """Goes over a kernel's tokens; `reads`, `writes` and `order` gain an entry for each access."""

    def __init__(self, text):
        self.tokens = TOKEN.findall(SKIPPED.sub(" ", text))
        self.at = 0
        self.names, self.arrays, self.parameters = {}, set(), []
        self.reads, self.writes, self.order = [], [], []
        self.statements = 0

    def next(self):
        self.at += 1
        return self.tokens[self.at - 1]

    def skip(self, *wanted):
        """Goes over the next token where it is one of these."""
        found = self.at < len(self.tokens) and self.tokens[self.at] in wanted
        self.at += found
        return found

    def up_to(self, *ends):
        """The tokens in front of the first of these that stands outside brackets; goes over it."""
        begin, depth = self.at, 0
        while depth > 0 or self.tokens[self.at] not in ends:
            depth += {"(": 1, "[": 1, ")": -1, "]": -1}.get(self.tokens[self.at], 0)
            self.at += 1
        self.at += 1
        return self.tokens[begin:self.at - 1]

    def worth(self, tokens):
        """What an affine expression or a condition of these tokens is worth."""
        text = NUMBER.sub(lambda found: f"number({int(found[1], 0)})", " ".join(tokens).replace("&&", "and"))
        return eval(text.strip(), {"number": number}, self.names)

    def rows_of(self, tokens):
        """The rows of a condition."""
        Form.rows = []
        self.worth(tokens)
        return Form.rows

    def kernel(self):
        self.up_to("(")
        while not self.skip("{"):
            declared = self.up_to(",", ")")
            if declared[:1] in (["uint32_t"], ["uint64_t"]):
                self.arrays.add(declared[1])
            elif declared:
                self.parameters.append(declared[1])
                self.names[declared[1]] = Form({declared[1]: 1})
        self.items([], [], [])

    def items(self, turns, place, rows):
        """Items up to the closing brace: the turns round them, their place in the text, the rows that hold there."""
        count = 0
        while not self.skip("}"):
            self.item(turns, place + [str(count)], rows)
            count += 1

    def item(self, turns, place, rows):
        if self.skip("{"):
            self.items(turns, place, rows)
        elif self.skip("for"):
            self.loop(turns, place, rows)
        elif self.skip("if"):
            self.next()
            self.item(turns, place, rows + self.rows_of(self.up_to(")")))
        elif self.skip("int64_t"):
            self.up_to(";")
        elif not self.skip(";"):
            self.statement(turns, place, rows)

    def loop(self, turns, place, rows):
        self.next()
        first = [token for token in self.up_to(";") if token != "int64_t"]
        condition, step = self.up_to(";"), self.up_to(")")
        iterator, turn = first[0], f"t{len(turns)}"
        kept = self.names.get(iterator)
        start = self.worth(first[2:])
        self.names[iterator] = start + self.stride(iterator, step) * Form({turn: 1})
        inner = rows + [Form({turn: 1})] + self.rows_of(condition)
        self.item(turns + [turn], place + [turn], inner)
        self.names[iterator] = kept

    def stride(self, iterator, step):
        """What a loop's third part adds to its iterator."""
        if "++" in step or "--" in step:
            return number(1 if "++" in step else -1)
        if step[1] == "=":
            self.names[iterator] = number(0)
            return self.worth(step[2:])
        amount = self.worth(step[2:])
        return amount if step[1] == "+=" else -amount

    def statement(self, turns, place, rows):
        accesses = []
        operator = "="
        while not self.skip(";"):
            token = self.next()
            if token in self.arrays:
                accesses.append((token, self.subscripts()))
            elif token.endswith("=") and len(accesses) == 1 and operator == "=":
                operator = token
        self.statements += 1
        found = accesses[:1] + (accesses[:1] if operator != "=" else []) + accesses[1:]
        for access, (array, subscripts) in enumerate(found):
            self.access(access, array, subscripts, turns, place, rows)

    def subscripts(self):
        found = []
        while self.skip("["):
            found.append(self.worth(self.up_to("]")))
        return found

    def access(self, access, array, subscripts, turns, place, rows):
        """An access is an instance of its own, by its statement and number; a write comes behind the reads."""
        instance = f"S{self.statements}_{access}[{', '.join(turns)}]"
        where = " and ".join(f"{row} >= 0" for row in rows) or "1 = 1"
        cell = f"{array}[{', '.join(map(str, subscripts))}]"
        (self.reads if access else self.writes).append(f"{instance} -> {cell} : {where}")
        self.order.append((instance, place + ["0" if access else "1"]))


def accesses_of(text):
    """The reads, the writes and the order of a kernel, each a line that isl reads."""
    reader = Reader(text)
    reader.kernel()
    width = max((len(place) for _, place in reader.order), default=0)
    order = []
    for instance, place in reader.order:
        padded = place[:-1] + ["0"] * (width - len(place)) + place[-1:]
        order.append(f"{instance} -> [{', '.join(padded)}]")
    head = f"[{', '.join(reader.parameters)}] -> "
    return "".join(f"{head}{{ {'; '.join(entries)} }}\n" for entries in (reader.reads, reader.writes, order))
