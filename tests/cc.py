"""Compares C files with those that tools/polypar-cc made of them.

usage: cc.py [--budget=B] OLD.c NEW.c OLD.c NEW.c ..

The new file is the old one, byte for byte, but for kernels, which are what `emit` prints, the functions in front of the
first, and lines that tell a compiler of lines and warnings. Each `#line` of the new file's own lines is right. Each
compiler that is there, with and without OpenMP, says of the new file what it says of the old one, by -Wall -Wextra, and
both print the same. In these files a kernel is a function kernel_.. over arrays, up to a line that begins with its
bracket; the functions stand in front of an `#ifndef WITHOUT_KERNEL`. Prints how many passed and failed.
"""

import os
import re
import shutil
import subprocess
import sys
import tempfile

POLYPAR = os.environ.get("POLYPAR", os.path.join(os.path.dirname(os.path.abspath(__file__)), "..", "polypar"))
OPTIONS = [word for word in sys.argv[1:] if word.startswith("--")]
FILES = [word for word in sys.argv[1:] if not word.startswith("--")]
WARNINGS = ["-std=c17", "-O1", "-Wall", "-Wextra"]
FRONT = r"(?:(?:static|inline|__attribute__\(\(\w+\)\))\s+(?:/\*[^\n*]*\*/\s+)?)*"
PLACES = re.compile(rf"""
    \#[ \t]*pragma[ \t]+polypar(?=\r?\n)
    |(?P<branch>^\#ifndef\ WITHOUT_KERNEL)
    |(?P<front>{FRONT})(?P<kernel>void\s+kernel_\w+\([^;{{*]*\{{.*?^\t?\}})""", re.DOTALL | re.MULTILINE | re.VERBOSE)
TOLD = re.compile(r'^#(?:line \d+ ".*"|pragma (?:GCC|clang) diagnostic .*)\r?\n', re.MULTILINE)


def text_of(file):
    with open(file, encoding="utf-8", newline="") as source:
        return source.read()


def emitted(kernel):
    """What `emit` prints of a kernel: the functions that it calls, and its own text."""
    kernel = re.sub(r"(?m)^%%$", "", kernel)
    words = [POLYPAR, "emit", *OPTIONS]
    printed = subprocess.run(words, input=kernel.encode(), capture_output=True, check=True).stdout.decode()
    functions, void, body = printed.partition("\nvoid ")
    return functions + void[:1], void[1:] + body


def expected(old):
    """The new text, but for the lines that tell a compiler of lines and warnings."""
    ends, places = "\r\n" if "\r\n" in old else "\n", list(PLACES.finditer(old))
    texts = [emitted(place["kernel"]) for place in places if place["kernel"]]
    functions, bodies, text, done = texts[0][0] if texts else "", (body for _, body in texts), "", 0
    for place in places:
        text, done = text + old[done:place.start()], place.end()
        if place["kernel"] or place["branch"]:
            text += ("" if text.endswith("\n") else ends) + functions.replace("\n", ends) + (place["front"] or "")
            text, functions = text + (place["branch"] or next(bodies).replace("\n", ends)), ""
    return text + old[done:]


def tried(compiler, file, program):
    """What a compiler says of a file, and what the program prints."""
    done = subprocess.run([*compiler, "-o", program, file], capture_output=True, check=False)
    said = re.findall(r"(?m)^.*(?:warning|error): .*$", done.stderr.decode())
    if done.returncode:
        return said, None
    return said, subprocess.run([program], capture_output=True, check=True, env={"OMP_NUM_THREADS": "2"}).stdout


def faults_of(old, new, compilers, program):
    """Each thing that is looked at in a new file, and whether it is wrong there."""
    text = text_of(new)
    yield "its bytes", TOLD.sub("", text) != expected(text_of(old))
    lines = [re.match(rf'#line (\d+) "{re.escape(new)}"', line) for line in text.split("\n")]
    yield "its own lines", any(line and int(line[1]) != at + 2 for at, line in enumerate(lines))
    for compiler in compilers:
        wanted = tried([compiler, *WARNINGS, "-Wno-unknown-pragmas"], old, program)
        for words in ([], ["-fopenmp"]):
            yield " ".join([compiler, *words]), tried([compiler, *WARNINGS, *words], new, program) != wanted


def main():
    compilers = [name for name in ("gcc", "clang") if shutil.which(name)]
    passed = failed = 0
    with tempfile.TemporaryDirectory() as folder:
        for old, new in zip(FILES[::2], FILES[1::2]):
            for name, is_wrong in faults_of(old, new, compilers, os.path.join(folder, "program")):
                passed, failed = passed + (not is_wrong), failed + bool(is_wrong)
                if is_wrong:
                    print(f"what was made of {old}: {name}")
    print(f"{passed} passed, {failed} failed")
    sys.exit(failed != 0)


main()
