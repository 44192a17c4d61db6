"""What tools/picture and tools/explore show of a kernel: instances and their places, tiles, waves, and last writes.

All of it comes from the program's answers. `emit --budget 1` keeps the order of the source, so its loops go over the
turns and give the source's iterators: these are the instances and their places. `run --report` tells the schedule, of
which tiles and waves follow (docs/SCANNING.md), and how many there are, which must agree. `deps` tells the last write
of each read at each instance.

What can't be shown is told in one line. That is so, too, where one move is enough for a schedule, as it may be for one
statement no instances of which conflict: then the order of the source is not kept. Nothing here is proved.
"""

import functools
import itertools
import math
import re
from fractions import Fraction

from kernel_reader import ask, cut, items_of, value

HALF = Fraction(1, 2)
CELL, MARGIN, BEFORE, BEHIND, ABOVE, BELOW, MOST_LOWERED = 46, 24, 30, 34, 50, 34, 4


class NoPicture(Exception):
    """Why there is no picture."""


@functools.cache
def asked(words, text):
    """What the program writes to its two streams on a text, asked once."""
    return ask(words.split(), text)


@functools.cache
def compiled(form):
    """A form of an answer, or its comparisons, as code over names: parameters, iterators, `$K` and `#K`."""
    named = re.sub(r"[A-Za-z_]\w*|[$#]\d+", lambda name: f"names[{name.group()!r}]", form)
    return compile(named.replace("&&", "and"), form, "eval")


def value_of(form, names):
    """What a form is worth, or whether comparisons hold."""
    return eval(compiled(form), {"names": names})


def visits(lines, names, turns=()):
    """Each instance of the source's loops as they are emitted: its statement's number, and its turns."""
    while lines:
        line, *lines = lines
        if found := re.fullmatch(r" *\{ /\* S(\d+) \*/ .*", line):
            yield int(found[1]), turns
        found = re.fullmatch(r"( *)(?:for \(int64_t (\w+) = (.*); \w+ <= (.*); \w+\+\+\)|if \((.*)\)) \{", line)
        if not found:
            continue
        end = lines.index(found[1] + "}")
        body, lines = lines[:end], lines[end:]
        if found[2]:
            for turn in range(value_of(found[3], names), value_of(found[4], names) + 1):
                yield from visits(body, names | {found[2]: turn}, (*turns, turn))
        elif value_of(found[5], names):
            yield from visits(body, names, turns)


def writer_of(parts, names):
    """The instance that a quast names, or nothing; of its text the parts are what stands between braces, and these."""
    def block(names):
        while next(parts) != "{":
            pass
        writer = writer_of(parts, names)
        next(parts)
        return writer

    head = next(parts).strip()
    if found := re.fullmatch(r"if (.*) >= 0", head):
        ways = block(names), block(names)
        return ways[value_of(found[1], names) < 0]
    if found := re.fullmatch(r"let (#\d+) = floor\((.*) / (\d+)\)", head):
        return block(names | {found[1]: value_of(found[2], names) // int(found[3])})
    found = re.fullmatch(r"S(\d+) \((.*)\)", head)
    return found and (int(found[1]), tuple(value_of(form, names) for form in found[2].split(", ") if form))


def value_at(form, turns):
    """What a statement's form in an item of a schedule is worth at its turns."""
    return value(form, {None: 1, **{f"${k}": turn for k, turn in enumerate(turns, 1)}})


class Kernel:
    """A kernel with its parameters, as the answers tell it."""

    most_instances = 400

    def __init__(self, text, data, words):
        emitted, lines = asked("emit --budget 1", text)
        if "kept: " not in lines:
            raise NoPicture("its schedule is found in one move, so no answer keeps the order of the source")
        self.name, header = re.search(r"void (\w+)\((.*)\) \{", emitted).groups()
        self.values = parameters_of(header, data, words)
        self.input = text + "\n%%\n" + "".join(f"{name} = {value}\n" for name, value in self.values.items())
        names = {"pp_floord": int.__floordiv__, **self.values}
        statements = {int(number): Statement(int(number), names, parts.split("; "))
                      for number, parts in re.findall(r"\{ /\* S(\d+) \*/ (.*); \}", emitted)}
        self.instances = list(itertools.islice(visits(emitted.splitlines(), names), self.most_instances + 1))
        if not 0 < len(self.instances) <= self.most_instances:
            raise NoPicture(f"more than {self.most_instances} instances" if self.instances else "no instance")
        self.statements = {number: statements[number] for number in sorted({number for number, _ in self.instances})}
        for statement in self.statements.values():
            statement.spread([turns for number, turns in self.instances if number == statement.number])
        self.find_flow(asked("deps", text)[0], names)

    def find_flow(self, answer, names):
        """What wrote the cell of each read of each instance last, if any; and the lines of unresolved reads.

        The flow is of pairs of instances, one that writes a cell and one whose read gets it."""
        self.sources, self.unresolved = {}, [line for line in answer.splitlines() if ": unresolved" in line]
        for line, (number, turns) in itertools.product(answer.splitlines(), self.instances):
            found = re.fullmatch(rf"S{number} read (\d+) \w+: (.*)", line)
            if found and line not in self.unresolved:
                at = names | {f"${k}": turn for k, turn in enumerate(turns, 1)}
                writer = writer_of(iter(re.findall(r"[{}]|[^{}]+", found[2])), at)
                self.sources[(number, turns), int(found[1])] = writer
        self.flow = sorted({(writer, reader) for (reader, _), writer in self.sources.items() if writer})

    def cut(self, size):
        """Puts the instances into tiles of this size, or about four along a loop, and these into waves."""
        longest = max((turn + 1 for _, turns in self.instances for turn in turns), default=1)
        self.size = max(2, (longest + 3) // 4) if size is None else size
        self.report = asked(f"run --report --tile {self.size}", self.input)[1].splitlines()
        items = items_of("\n".join(self.report))
        self.rows = [(item.carries, item.forms) for item in items if item.band == 1]
        scalars = [item.forms for item in itertools.takewhile(lambda item: item.band is None, items)]
        self.tiles = {(number, turns): (tuple(value_at(forms[number], turns) for forms in scalars),
                                        tuple(value_at(forms[number], turns) // self.size for _, forms in self.rows))
                      for number, turns in self.instances}
        keys = {tile: (tile[0], sum(at for at, (carries, _) in zip(tile[1], self.rows) if carries))
                for tile in self.tiles.values()}
        waves = sorted(set(keys.values()))
        self.waves = {tile: waves.index(key) + 1 for tile, key in keys.items()}
        if not self.report[-1].startswith(f"tiles {len(keys)} waves {len(waves)} "):
            raise NoPicture(f"{len(keys)} tiles in {len(waves)} waves are found, and the report has {self.report[-1]}")


def read_kernel(file):
    """The text of a kernel, and the data lines behind it."""
    with open(file, encoding="latin-1", newline="") as source:
        return cut(source.read())


def parameters_of(header, data, words):
    """The value of each parameter: what the last line of it says."""
    names = re.findall(r"\bint64_t (\w+)", header)
    for word in words:
        if not re.fullmatch(rf"({'|'.join(names)})=\d+", word):
            raise NoPicture(f"{word} gives no parameter a value")
    lines = "\n".join([data, *words])
    values = dict(re.findall(r"^[ \t]*(\w+)[ \t]*=[ \t]*(\d+)[ \t\r]*$", lines, re.MULTILINE))
    for name in names:
        if name not in values:
            raise NoPicture(f"{name} has no value")
    return {name: int(values[name]) for name in names}


class Statement:
    """A statement, and the grid of its instances: the outermost loop goes down, the one within it to the right."""

    def __init__(self, number, names, parts):
        self.number, self.names, self.text = number, names, parts[-1]
        self.iterators = [given.removeprefix("const int64_t ").split(" = ") for given in parts[:-1]]
        self.left = self.top = 0

    def place(self, turns):
        """The values of the iterators at these turns."""
        names = self.names | {f"pp_{k}": turn for k, turn in enumerate(turns, 1)}
        for name, form in self.iterators:
            names[name] = value_of(form, names)
        return [names[name] for name, _ in self.iterators]

    def spread(self, all_turns):
        """Makes the grid of the instances at these turns: of each iterator the first value, the step and how many."""
        values = [sorted(set(column)) for column in zip(*map(self.place, all_turns))]
        self.firsts = [column[0] for column in values]
        self.steps = [math.gcd(*(value - column[0] for value in column)) or 1 for column in values]
        self.spans = [(column[-1] - column[0]) // step + 1 for column, step in zip(values, self.steps)]
        self.down, self.across = (*self.spans, 1, 1)[:2]
        self.ends = (*(max(column) + HALF for column in zip(*all_turns)), HALF, HALF)[:2]

    def point(self, turns):
        """Where the grid has the point at two turns, also between whole ones: across and down, from 0."""
        place = self.place(turns[:len(self.iterators)])
        down = [Fraction(value - first) / step for value, first, step in zip(place, self.firsts, self.steps)]
        return (*down, *turns[len(down):])[1::-1]

    def pixel(self, point):
        """Where a point of the grid is drawn."""
        return self.left + (point[0] + HALF) * CELL, self.top + (point[1] + HALF) * CELL

    def corners(self, kernel, coordinates, behind=()):
        """Where the corners of a tile are drawn, as far as it lies within the loops and the grid.

        What is drawn lies at the given turns of the loops behind the second; where none are given, rows that depend on
        such a loop cut nothing off."""
        (down, across), low = self.ends, -HALF
        corners = [(low, low), (down, low), (down, across), (low, across)]
        for coordinate, (_, forms) in zip(coordinates, kernel.rows):
            form = {name: number for name, number in forms[self.number].items() if number or not name}
            for k, turn in enumerate(behind, 3):
                form[None] += form.pop(f"${k}", 0) * turn
            if not form.keys() <= {None, "$1", "$2"}:
                continue
            low, high = (edge_of(form, kernel.size * at) for at in (coordinate, coordinate + 1))
            corners = clipped(corners, lambda turns: value_at(form, turns) - low)
            corners = clipped(corners, lambda turns: high - value_at(form, turns))
        corners = [self.point((*turns, *behind, *[0] * len(self.iterators))) for turns in corners]
        for k, span in enumerate((self.across, self.down)):
            corners = clipped(clipped(corners, lambda point: point[k] + HALF), lambda point: span - HALF - point[k])
        return [self.pixel(corner) for corner in corners]


def edge_of(form, bound):
    """Half way between the values of a form at whole turns that lie below a bound and those that do not."""
    step = math.gcd(*(factor for name, factor in form.items() if name)) or 1
    return bound + (form[None] - bound) % step - step * HALF


def clipped(corners, depth):
    """What is left of a convex polygon where an affine function of its points is not negative."""
    left = []
    for here, there in zip(corners, corners[1:] + corners[:1]):
        a, b = depth(here), depth(there)
        if a >= 0:
            left.append(here)
        if a * b < 0:
            left.append(tuple(p + (q - p) * a / (a - b) for p, q in zip(here, there)))
    return left


def lay(statements, top):
    """Puts the grids side by side, equal values of outermost iterators at one height; and where they end."""
    firsts = [statement.firsts[0] for statement in statements if statement.firsts]
    steps = {statement.steps[0] for statement in statements if statement.steps}
    is_level = len(steps) == 1 and max(firsts) - min(firsts) <= MOST_LOWERED
    right, bottom = MARGIN, top
    for statement in statements:
        lowered = statement.firsts[0] - min(firsts) if is_level and statement.firsts else 0
        statement.left, statement.top = right + BEFORE, top + ABOVE + CELL * lowered // max(steps, default=1)
        right = statement.left + statement.across * CELL + BEHIND
        bottom = max(bottom, statement.top + statement.down * CELL + BELOW)
    return right, bottom


def told(value):
    """An attribute's text: a number has one decimal place at most."""
    return value if isinstance(value, str) else f"{round(float(value), 1) + 0:g}"
