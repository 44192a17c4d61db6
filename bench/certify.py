"""Times `polypar certify` and `check` on kernels against `schedule`. Called by certify.sh.

usage: certify.py PROGRAM FOLDER ROUNDS FILE..
"""

import os
import sys

from kernel_texts import kernels_of
from timing import rounds_of, shortest


def written(folder, name, text):
    """A file of this text."""
    file = os.path.join(folder, name)
    with open(file, "w", encoding="latin-1", newline="") as out:
        out.write(text)
    return file


def milliseconds(program, folder, rounds, text):
    """What the three calls take for a kernel, and what `certify` prints and `check` answers."""
    kernel = written(folder, "kernel.c", text)
    commands = {name: [program, name] for name in ("schedule", "certify")}
    times, printed = shortest(commands, rounds, kernel)
    certificate = printed["certify"].decode("latin-1")
    if certificate.startswith(("kept", "uncertified")):
        return times, certificate.strip()
    checked = written(folder, "checked.c", text + "%%\n" + certificate)
    more, answers = shortest({"check": [program, "check"]}, rounds, checked)
    times.update(more)
    lines = certificate.count("\n")
    return times, f"{lines} lines" if answers["check"] == b"yes\n" else "not accepted"


def line_of(name, times, told):
    """The line of a kernel or of the sum."""
    parts = [f"{part} {1000 * times[part]:9.2f} ms" for part in ("schedule", "certify", "check") if part in times]
    return f"{name:20} {'  '.join(parts)}  ratio {times['certify'] / times['schedule']:6.2f}  {told}"


def main():
    program, folder, rounds, *files = sys.argv[1:]
    sums = {}
    for name, text in (kernel for file in files for kernel in kernels_of(file)):
        times, told = milliseconds(program, folder, rounds_of([rounds], 5), text)
        for part in times:
            sums[part] = sums.get(part, 0.0) + times[part]
        print(line_of(name, times, told), flush=True)
    print(line_of("sum", sums, ""))


main()
