"""Changes certificates at random, and compares what `polypar check` says with what tools/check_certificate does.

usage: certificates.py PROGRAM COUNT FILE.c..; beside each kernel stands FILE.certificate; emitted texts are left out. A
change puts another number, drops, doubles, moves or breaks a line, or puts a byte: most are rejected, some are
certificates again. Prints how many were answered alike, and how many of these were accepted.
"""

import importlib.machinery
import importlib.util
import os
import random
import re
import subprocess
import sys

sys.path.insert(0, os.path.join(os.path.dirname(os.path.abspath(__file__)), "..", "bench"))
from kernel_texts import kernel_of  # noqa: E402

NUMBERS = ["0", "1", "2", "3", "7", "10", "64", "65536", str(2**63), str(2**64), str(2**127 - 1), str(2**127),
           str(2**128 - 1), str(2**128), "01", "-1", ""]


def reader():
    """tools/check_certificate as a module."""
    file = os.path.join(os.path.dirname(os.path.abspath(__file__)), "..", "tools", "check_certificate")
    loader = importlib.machinery.SourceFileLoader("check_certificate", file)
    module = importlib.util.module_from_spec(importlib.util.spec_from_loader(loader.name, loader))
    loader.exec_module(module)
    return module


def with_number(draw, text):
    """One number is another one, often its neighbour."""
    places = [found.span() for found in re.finditer("[0-9]+", text)]
    if not places:
        return text
    first, end = draw.choice(places)
    near = str(max(0, int(text[first:end]) + draw.choice([-1, 1])))
    return text[:first] + draw.choice([near, near, near, draw.choice(NUMBERS)]) + text[end:]


def with_line(draw, text):
    """One line is left out, doubled, moved, or ends otherwise."""
    lines = text.splitlines(keepends=True)
    if not lines:
        return "\n"
    at = draw.randrange(len(lines))
    line = lines.pop(at)
    more = draw.choice([[], [line, line], None, [line.replace("\n", "\r\n")], [" " + line], [line, "\n"]])
    if more is None:
        at, more = draw.randrange(len(lines) + 1), [line]
    return "".join(lines[:at] + more + lines[at:])


def with_byte(draw, text):
    """One byte is put in, or taken out."""
    at = draw.randrange(len(text) + 1)
    return text[:at] + draw.choice(["", " ", "x", "0", ":", "\n", "\t", "\0", "\xff"]) + text[at + draw.randrange(2):]


def with_term(draw, text):
    """A step takes one row more, or the rows of another line."""
    steps = [found.span() for found in re.finditer(r"(?m)^line .*$", text)]
    if not steps:
        return text
    end, other = draw.choice(steps)[1], draw.choice(steps)
    terms = text[other[0]:other[1]].split(" ", 2)[-1]
    return text[:end] + " " + draw.choice(["1:1", "2:3", terms]) + text[end:]


def main():
    program, count, *files = sys.argv[1:]
    check, draw, alike, accepted = reader(), random.Random(7), 0, 0
    cases = []
    for file in files:
        if file.endswith(".emit.c"):
            continue
        with open(file[: -len(".c")] + ".certificate", encoding="latin-1", newline="") as source:
            cases.append((kernel_of(file), source.read()))
    for _ in range(int(count)):
        kernel, text = draw.choice(cases)
        for _ in range(draw.choice([1, 1, 1, 2, 5])):
            text = draw.choice([with_number, with_number, with_line, with_byte, with_term])(draw, text)
        wanted = check.judge(check.Kernel(kernel), text)
        done = subprocess.run([program, "check"], input=(kernel + "%%\n" + text).encode("latin-1"),
                              capture_output=True, check=False)
        said = (done.stdout + done.stderr).decode().strip()
        if (said, done.returncode) == (wanted, 0 if wanted == "yes" else 8):
            alike, accepted = alike + 1, accepted + (wanted == "yes")
        else:
            print(f"{said} for {wanted}: {text!r}")
    print(f"{alike} passed, {int(count) - alike} failed; {accepted} were certificates")
    return alike != int(count)


if __name__ == "__main__":
    sys.set_int_max_str_digits(0)
    sys.exit(main())
