"""Runs random kernels over arrays of 32 and 64 bits, and compares what they leave with what C makes of their own text.

usage: widths.py PROGRAM COUNT. The texts are compiled by gcc, so that a step which C leaves undefined ends the program.
The text that `emit` prints is compiled for each fourth kernel: it leaves the same arrays, and gcc warns of none of its
statements where it does not warn, by the same flag, of the source's. -Woverflow is left out of that, since a negative
constant that is assigned is printed as a number of 64 bits (docs/SCANNING.md). Prints how many were alike.
"""

import concurrent.futures
import os
import random
import re
import subprocess
import sys
import tempfile

sys.path.insert(0, os.path.join(os.path.dirname(os.path.abspath(__file__)), "..", "bench"))
from harness import built, run_of  # noqa: E402

BATCH = 100
COMPILER = ["gcc", "-std=c17", "-O2", "-w", "-fsanitize=undefined", "-fno-sanitize-recover"]
READER = ["gcc", "-std=c17", "-fsyntax-only", "-Wall", "-Wextra", "-Wconversion", "-Wno-sign-conversion",
          "-Wno-unused-function", "-Wno-unused-variable", "-Wno-unused-parameter", "-Wno-unknown-pragmas"]
HEAD = "#include <stdint.h>\n#include <stdio.h>\n#include <stdlib.h>\n"
MAIN = '__attribute__((optimize("O0"), no_sanitize("undefined")))\nint main(void) {\n'
NARROW, FULL = "uint32_t", "uint64_t"
# How tightly operators bind, then signs and casts, then all else.
LEVELS = {"*": 5, "+": 4, "-": 4, "<<": 3, ">>": 3, "&": 2, "^": 1, "|": 0}
UNARY, PRIMARY = 6, 7
# Signed parts that may stand beside 32 bits, those that may not, and constants of 64 bits.
BARE = ["0", "1", "5", "2147483646", "2147483647", "0x7fffffff", "0x80000000", "0XFFFFFFFE", "0xFFFFFFFF", "(-1)",
        "(-1048576)", "(2 - -3)", "(-7*9)"]
LONG = ["2147483648", "4294967295", "4294967296", "9223372036854775807", "0x100000000", "0xffffffffffffffff", "N",
        "(3 - N)"]
SUFFIXED = ["0ULL", "1llu", "2147483648uLL", "0xFFFFFFFFLLU", "4294967296ull", "18446744073709551615ULL"]
# What cells hold at first.
CELLS = [0, 1, 2, 2**31 - 1, 2**31, 2**32 - 1]
FULL_CELLS = [2**32, 2**63 - 1, 2**63, 2**64 - 1]


class Writer:
    """Writes a kernel over three arrays and a parameter from 1 to 3. A value is its type, how tightly it binds, and its
    text; iterators go from 1 to N, and subscripts from 0 to 2N + 2."""

    def __init__(self, name, draw):
        self.name, self.draw, self.one_of = name, draw, draw.choice
        self.arrays = {array: (self.one_of([NARROW, FULL]), self.one_of([1, 1, 2])) for array in "ABC"}
        self.open, self.lines, self.statements = [], [], 0

    def happens(self, chance):
        return self.draw.random() < chance

    def text_of(self, value, level):
        """A value's text where it has to bind so tightly."""
        return value[2] if value[1] >= level and self.happens(0.9) else f"({value[2]})"

    def cell(self):
        array = self.one_of("ABC")
        own, rank = self.arrays[array]
        for _ in range(rank):
            i, j = self.one_of(self.open), self.one_of(self.open)
            subscripts = [i, i, i + " + 1", i + " - 1", f"N - {i}", f"{i} + {j}", f"N + {i} - {j}", "2*" + i, "1"]
            array += f"[{self.one_of(subscripts)}]"
        return own, PRIMARY, array

    def signed(self, beside):
        """The text of a signed part that may stand beside this type."""
        i, j = self.one_of(self.open), self.one_of(self.open)
        long = LONG + [i, f"({i} - 2*{j})", f"(-{i})", f"({i}*3 + N - 1048576)"]
        return self.one_of(BARE if beside == NARROW else BARE + long)

    def count(self, own):
        return self.one_of(["0", "1", "16", "31"] if own == NARROW else ["0", "7", "31", "32", "0x3F"])

    def value(self, depth):
        """An unsigned value of so many operators one within another, or fewer."""
        if depth == 0:
            return self.cell() if self.happens(0.8) else (FULL, PRIMARY, self.one_of(SUFFIXED))
        return self.one_of([self.cast, self.opposite, self.shift] + [self.joined] * 4)(depth - 1)

    def cast(self, depth):
        own = self.one_of([NARROW, FULL])
        text = self.signed(FULL) if self.happens(0.4) else self.text_of(self.value(depth), UNARY)
        return own, UNARY, f"({own}){text}"

    def opposite(self, depth):
        value = self.value(depth)
        return value[0], UNARY, self.one_of("-~") + self.text_of(value, PRIMARY)

    def shift(self, depth):
        value, sign = self.value(depth), self.one_of(["<<", ">>"])
        return value[0], LEVELS[sign], f"{self.text_of(value, LEVELS[sign])} {sign} {self.count(value[0])}"

    def joined(self, depth):
        """A value with an operator and another one, or a signed part, on either side."""
        value, sign = self.value(depth), self.one_of("+-*&^|")
        sides = [value, (value[0], PRIMARY, self.signed(value[0])) if self.happens(0.3) else self.value(depth)]
        own = FULL if FULL in (sides[0][0], sides[1][0]) else NARROW
        self.draw.shuffle(sides)
        left, right = self.text_of(sides[0], LEVELS[sign]), self.text_of(sides[1], LEVELS[sign] + 1)
        return own, LEVELS[sign], f"{left} {sign} {right}"

    def statement(self):
        own, _, place = self.cell()
        sign = self.one_of(["="] * 5 + ["+=", "-=", "*=", "&=", "|=", "^=", "<<=", ">>="])
        if sign in ("<<=", ">>="):
            right = self.count(own)
        elif self.happens(0.2):
            right = self.signed(FULL if sign == "=" else own)
        else:
            right = self.value(self.one_of([0, 1, 2, 3, 3]))[2]
        self.statements += 1
        self.lines.append(f"/* S{self.statements} */ {place} {sign} {right};")

    def loop(self):
        i, bound = "ijk"[len(self.open)], self.one_of(self.open + ["N"])
        heads = [f"{i} = 1; {i} <= N; {i}++", f"{i} = 1; {i} < {bound} + 1; {i} += 2",
                 f"{i} = {bound}; {i} >= 1; --{i}", f"{i} = {bound}; N >= {i}; {i} = {i} + 1"]
        self.lines.append(f"for (int64_t {self.one_of(heads)}) {{")
        self.open.append(i)
        for _ in range(self.one_of([1, 1, 2])):
            if self.happens(0.2):
                self.lines.append(f"if ({self.open[0]} + 1 > {i} && 2*{i} {self.one_of(['<=', '=='])} N)")
            self.loop() if len(self.open) < 3 and self.happens(0.4) else self.statement()
        self.open.pop()
        self.lines.append("}")

    def kernel(self):
        for _ in range(self.one_of([1, 2])):
            self.loop()
        header = ["int64_t N"] + [f"{own} {array}" + "[2*N + 3]" * rank for array, (own, rank) in self.arrays.items()]
        return f"void {self.name}({', '.join(header)}) {{\n" + "\n".join(self.lines) + "\n}\n"

    def data(self):
        """The words of each data line by its name."""
        n = self.draw.randrange(1, 4)
        data = {"N": [str(n)]}
        for array, (own, rank) in self.arrays.items():
            cells = CELLS + [self.draw.randrange(2**32)] + FULL_CELLS * (own == FULL)
            row = [str(self.one_of(cells)) for _ in range((2*n + 3)**rank)]
            data[array] = row if self.happens(0.5) else ["seed", str(self.one_of(CELLS + FULL_CELLS))]
        return data


def warnings_in(said, text):
    """The kernel, the statement and the flag of each warning of a text."""
    places, kernel = [], None
    for line in text.split("\n"):
        head, mark = re.match(r"\w+ (\w+)\(", line), re.search(r"/\* (S\d+) \*/", line)
        kernel = head[1] if head else kernel
        places.append((kernel, mark and mark[1]))
    found = re.findall(r":(\d+):\d+: warning: .*\[(-W[\w-]+)", said)
    return {(*places[int(line) - 1], flag) for line, flag in found}


def by_c(folder, name, texts, cases):
    """What texts of kernels leave on their data, by the kernels' names, and the warnings of gcc."""
    lines = []
    for kernel, (text, data) in cases.items():
        lines += [f'{{ puts("%{kernel}");', *run_of(text, data), "}"]
    text = HEAD + "".join(texts) + MAIN + "\n".join(lines) + "\n}\n"
    program, said = built(folder, name, text, COMPILER)
    if program is None:
        sys.exit(said)
    _, said = built(folder, name + "_read", text, READER)
    done = subprocess.run([program], capture_output=True, check=False)
    print(done.stderr.decode(), end="")
    return dict(part.split("\n", 1) for part in done.stdout.decode().split("%")[1:]), warnings_in(said, text)


def asked(program, words, case):
    """What the program prints of a case, or what it says."""
    kernel, data = case
    text = kernel + "%%\n" + "".join(f"{name} = {' '.join(words)}\n" for name, words in data.items())
    done = subprocess.run([program, *words], input=text.encode(), capture_output=True, check=False)
    return (done.stderr if done.returncode else done.stdout).decode()


def faults_of(program, folder, numbers):
    """What is wrong with the kernels of these numbers."""
    cases, faults = {}, []
    for number in numbers:
        writer = Writer(f"k{number}", random.Random(number))
        cases[writer.name] = (writer.kernel(), writer.data())
    wanted, known = by_c(folder, f"own{numbers[0]}", [kernel for kernel, _ in cases.values()], cases)
    for kernel, case in cases.items():
        told = asked(program, ["run", "--tile", str(len(kernel) % 3 + 1)], case)
        if told != wanted.get(kernel):
            faults.append(f"{case[0]}runs to\n{told}and by C to\n{wanted.get(kernel)}")
    few = dict(list(cases.items())[::4])
    texts = [asked(program, ["emit", "--tile", "2"], case) for case in few.values()]
    texts[1:] = [re.sub(r"(?m)^static .*\n", "", text) for text in texts[1:]]
    left, said = by_c(folder, f"emitted{numbers[0]}", texts, few)
    for (kernel, case), text in zip(few.items(), texts):
        more = {(statement, flag) for own, statement, flag in said - known if own == kernel and flag != "-Woverflow"}
        if left.get(kernel) != wanted.get(kernel) or more:
            faults.append(f"{text}leaves\n{left.get(kernel)}and by its own text\n{wanted.get(kernel)}warnings {more}")
    return faults


def main():
    program, count = sys.argv[1], int(sys.argv[2])
    with tempfile.TemporaryDirectory() as folder, concurrent.futures.ThreadPoolExecutor(os.cpu_count()) as pool:
        batches = [range(first, min(first + BATCH, count)) for first in range(0, count, BATCH)]
        told = pool.map(lambda numbers: faults_of(program, folder, numbers), batches)
        faults = [fault for each in told for fault in each]
    for fault in faults:
        print(fault)
    total = count + sum(len(numbers[::4]) for numbers in batches)
    print(f"{total - len(faults)} passed, {len(faults)} failed")
    return bool(faults)


if __name__ == "__main__":
    sys.exit(main())
