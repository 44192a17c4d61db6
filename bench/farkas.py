"""Times the conflicts of kernels and the rows of all of them by the program, against the same eliminations by isl.

usage: farkas.py PROGRAM CASES BASELINE ROUNDS FILE..; CASES prints the conflicts of a kernel, an empty BASELINE is none
"""

import os
import re
import shutil
import subprocess
import sys
import tempfile

from kernel_texts import kernel_of
from timing import one_run, rounds_of, shortest

CALLS = ("conflicts", "legal", "bounded")
WANTED_SECONDS = 0.2


def cases_of(program, text):
    """The conflicts of a kernel as cases of Farkas's lemma, as the program prints them."""
    case = f"kernel {len(text.encode())}\n{text}\n"
    printed = subprocess.run([program], input=case, capture_output=True, text=True, check=True).stdout
    loops, cases = {}, []
    lines = printed[len(case):].splitlines()
    for place, line in enumerate(lines):
        words = line.split()
        if words[0] == "domain":
            loops[words[1][1:]] = lines[place + 1].split()[1]
        elif words[0] == "dep":
            source, _, target, _, _ = words[1:]
            cases.append(f"dep {source} {loops[source]} {target} {loops[target]}")
        elif cases and words[0] != "end":
            cases.append(line)
    return "".join(case + "\n" for case in cases)


def milliseconds(command, rounds, source):
    """What one call takes: `command` with a number of calls behind it."""
    start, _ = one_run(command + ["0"], source)
    once, _ = one_run(command + ["1"], source)
    count = max(1, int(WANTED_SECONDS / max(once - start, 1e-4)))
    commands = {"start": command + ["0"], "calls": command + [str(count)]}
    times, _ = shortest(commands, rounds, source)
    return (times["calls"] - times["start"]) * 1000 / count


def questions(program, call, source):
    """How many questions one call asks of the solver: how often the debugger meets the function that asks one."""
    command = ["gdb", "-batch", "-nx", "-ex", "break farkas::dropping::ask", "-ex", "ignore 1 1000000000"]
    command += ["-ex", f"run {call} 1 < {source} > {os.devnull}", "-ex", "info breakpoints", program]
    told = subprocess.run(command, capture_output=True, text=True, check=True).stdout
    hits = re.search(r"already hit (\d+) time", told)
    return int(hits.group(1)) if hits else 0


def of_isl(baseline, rounds, cases):
    """The milliseconds that isl takes for the cases, both claims."""
    with tempfile.NamedTemporaryFile("w", suffix=".txt") as text:
        text.write(cases)
        text.flush()
        once, _ = one_run([baseline], text.name)
        count = max(1, int(WANTED_SECONDS / max(once, 1e-3)))
        text.write(cases * (count - 1))
        text.flush()
        times, _ = shortest({"isl": [baseline]}, rounds, text.name)
    start, _ = shortest({"isl": [baseline]}, rounds)
    return (times["isl"] - start["isl"]) * 1000 / count


def measure(program, cases_program, baseline, rounds, file):
    """Prints the line of a kernel."""
    text = kernel_of(file)
    cases = cases_of(cases_program, text)
    with tempfile.NamedTemporaryFile("w", suffix=".c") as kernel:
        kernel.write(text)
        kernel.flush()
        taken = {call: milliseconds([program, call], rounds, kernel.name) for call in CALLS}
        asked = {}
        if shutil.which("gdb"):
            asked = {call: questions(program, call, kernel.name) for call in CALLS[1:]}
    line = f"{os.path.basename(file):14} {cases.count('dep '):4} dependences"
    for call in CALLS:
        line += f"  {call} {taken[call]:8.3f} ms"
        line += f" {asked[call]:5} questions" if call in asked else ""
    if baseline:
        own, other = taken["legal"] + taken["bounded"], of_isl(baseline, rounds, cases)
        line += f"  isl {other:8.3f} ms  ratio {own / other:5.2f}"
    print(line, flush=True)


def main():
    program, cases_program, baseline, rounds, *files = sys.argv[1:]
    for file in files:
        measure(program, cases_program, baseline, rounds_of([rounds], 5), file)


main()
