"""Compiles emitted texts of kernels, runs them on the kernels' data, and compares the arrays with those beside them.

usage: emitted.py FILE.c..; beside each stand FILE.emit.c and FILE.out. What a compiler says counts as a failure; each
text is compiled by every compiler that is there, with and without OpenMP. Prints how many passed and failed, and which
texts do not end within a few seconds: where the sets of a kernel are not separated, loops go over much in vain.

usage: emitted.py --by PROGRAM FILE.c..; nothing stands beside them: the program tells the arrays and the text, in tiles
of 3, which gcc compiles with OpenMP, and the kernel's own text has to leave the same arrays, too.
"""

import os
import shutil
import subprocess
import sys
import tempfile

sys.path.insert(0, os.path.join(os.path.dirname(os.path.abspath(__file__)), "..", "bench"))
from harness import built, run_of  # noqa: E402
from kernel_texts import kernel_of  # noqa: E402

SECONDS = 3
TILE = "3"
SLOW = f"no end within {SECONDS} seconds"
WARNINGS = ["-std=c17", "-O2", "-Wall", "-Wextra", "-Wno-unused-function", "-Wno-unused-variable",
            "-Wno-unused-parameter"]

MAIN = """
#include <stdio.h>
#include <stdlib.h>
int main(void) {
%s
}
"""


def data_of(file):
    """The words of each data line, by the name before the sign."""
    with open(file, encoding="utf-8") as source:
        lines = source.read().split("\n%%\n")[1].splitlines()
    return {name.strip(): words.split() for name, words in (line.split("=") for line in lines if line.strip())}


def program_of(text, kernel, data):
    """A C program that runs a text of the kernel on the data, and prints all arrays as `run` does."""
    return text + MAIN % "\n".join(run_of(kernel, data))


def stored(file):
    """The emitted text of a kernel and its arrays, as they stand beside it."""
    base = file[: -len(".c")]
    with open(base + ".emit.c", encoding="utf-8") as source, open(base + ".out", "rb") as arrays:
        return source.read(), arrays.read()


def told(program, file, *words):
    """What the program prints of a kernel, or what it says."""
    with open(file, "rb") as source:
        done = subprocess.run([program, *words], stdin=source, capture_output=True, check=False)
    return done.stdout if done.returncode == 0 else done.stderr


def fault_of(folder, file, text, wanted, compiler):
    """What is wrong with a text of a kernel under a compiler, or nothing."""
    program, said = built(folder, "emitted", program_of(text, kernel_of(file), data_of(file)), compiler)
    if program is None or said:
        return said or "it does not compile"
    environment = dict(os.environ, OMP_NUM_THREADS="4")
    try:
        done = subprocess.run([program], capture_output=True, check=True, env=environment, timeout=SECONDS)
    except subprocess.TimeoutExpired:
        return SLOW
    return None if done.stdout == wanted else "other arrays"


def stored_runs(files):
    """Each text that stands beside a kernel, with the arrays and a compiler: by every one, with and without OpenMP."""
    compilers = [[name, *WARNINGS, *flags] for name in ("gcc", "clang") if shutil.which(name)
                 for flags in (["-fopenmp"], ["-Wno-unknown-pragmas"])]
    for file in files:
        text, wanted = stored(file)
        for compiler in compilers:
            yield file, "emitted", text, wanted, compiler


def told_runs(program, files):
    """Each kernel's emitted text and its own, with the arrays that the program tells of it and a compiler."""
    for file in files:
        wanted = told(program, file, "run", "--tile", TILE)
        text = told(program, file, "emit", "--tile", TILE).decode()
        yield file, "emitted", text, wanted, ["gcc", *WARNINGS, "-fopenmp"]
        yield file, "own", "#include <stdint.h>\n" + kernel_of(file), wanted, ["gcc", "-std=c17", "-O0", "-w"]


def main():
    words = sys.argv[1:]
    runs = told_runs(words[1], words[2:]) if words[:1] == ["--by"] else stored_runs(words)
    failed = passed = slow = 0
    with tempfile.TemporaryDirectory() as folder:
        for file, kind, text, wanted, compiler in runs:
            fault = fault_of(folder, file, text, wanted, compiler)
            passed, slow = passed + (fault is None), slow + (fault == SLOW)
            failed += fault not in (None, SLOW)
            if fault is not None:
                print(f"{kind} text of {os.path.basename(file)}, {' '.join(compiler)}: {fault}")
    print(f"{passed} passed, {failed} failed, {slow} too slow to tell")
    sys.exit(failed != 0)


main()
