"""Times `polypar deps` on kernels against isl's flow of the same accesses. Called by deps.sh.

usage: deps.py PROGRAM BASELINE FOLDER ROUNDS FILE..; an empty BASELINE is none
"""

import os
import sys

from accesses import accesses_of
from kernel_texts import kernels_of
from timing import one_run, rounds_of, shortest

WANTED_SECONDS = 0.1


def written(folder, name, text):
    """A file of this text."""
    file = os.path.join(folder, name)
    with open(file, "w", encoding="utf-8") as out:
        out.write(text)
    return file


def milliseconds(program, baseline, folder, rounds, text):
    """What a call of each program takes for a kernel, and the flow of isl alone; and what `deps` printed."""
    kernel = written(folder, "kernel.c", text)
    commands = {"deps": [program, "deps"]}
    count = 1
    if baseline:
        isl = [baseline, written(folder, "accesses", accesses_of(text))]
        count = max(1, int(WANTED_SECONDS / max(one_run(isl + ["1"])[0], 1e-3)))
        commands.update({"isl": isl + ["1"], "start": isl + ["0"], "flows": isl + [str(count)]})
    times, printed = shortest(commands, rounds, kernel)
    taken = {name: 1000 * seconds for name, seconds in times.items()}
    if baseline:
        taken["flow"] = (taken.pop("flows") - taken.pop("start")) / count
    return taken, printed["deps"].decode()


def line_of(name, taken):
    """The line of a kernel or of the sum."""
    line = f"{name:20} deps {taken['deps']:9.2f} ms"
    if "isl" in taken:
        line += f"  isl {taken['isl']:9.2f} ms  ratio {taken['deps'] / taken['isl']:6.2f}"
        line += f"  its flow alone {taken['flow']:9.2f} ms  ratio {taken['deps'] / taken['flow']:6.2f}"
    return line


def main():
    program, baseline, folder, rounds, *files = sys.argv[1:]
    sums = {}
    for name, text in (kernel for file in files for kernel in kernels_of(file)):
        taken, printed = milliseconds(program, baseline, folder, rounds_of([rounds], 5), text)
        for part in taken:
            sums[part] = sums.get(part, 0.0) + taken[part]
        unresolved = printed.count(": unresolved ")
        print(line_of(name, taken) + (f"  {unresolved} unresolved" if unresolved else ""), flush=True)
    print(line_of("sum", sums))


main()
