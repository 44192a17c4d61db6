"""Makes the page of the kernels of bench/polybench. Called by polybench.sh.

usage: polybench.py PROGRAM FOLDER KERNELS PAGE ROUNDS|--quick [NAME..]. Asks the program for all that the page says of
a kernel, and times it as emitted.py does; with --quick the times that stand on the page stay, and with names those of
all other kernels. What a comment at the head of a kernel says behind `Differs:` is printed, and each line of
PolyBench's behind `Refused:` is tried.
"""

import os
import re
import subprocess
import sys
import textwrap

from emitted import THREADS, programs_of, timed_ways
from kernel_texts import kernel_of
from timing import shortest

# Parameters within the limits of the language, and how often a kernel runs with them: its own text for a tenth of a
# second to a second. The page has the kernels in this order, which is PolyBench's.
SIZES = {
    "correlation": ({"M": 500, "N": 600}, 1),
    "covariance": ({"M": 500, "N": 600}, 1),
    "2mm": ({"NI": 450, "NJ": 450, "NK": 450, "NL": 450}, 1),
    "3mm": ({"NI": 400, "NJ": 400, "NK": 400, "NL": 400}, 1),
    "atax": ({"M": 1900, "N": 2100}, 40),
    "bicg": ({"M": 1900, "N": 2100}, 40),
    "doitgen": ({"NR": 100, "NQ": 90, "NP": 120}, 2),
    "mvt": ({"N": 2000}, 10),
    "gemm": ({"NI": 700, "NJ": 750, "NK": 800}, 1),
    "gemver": ({"N": 2000}, 5),
    "gesummv": ({"N": 1400}, 60),
    "symm": ({"M": 500, "N": 600}, 1),
    "syr2k": ({"N": 600, "M": 500}, 1),
    "syrk": ({"N": 800, "M": 700}, 1),
    "trmm": ({"M": 600, "N": 700}, 1),
    "cholesky": ({"N": 1000}, 1),
    "durbin": ({"N": 8000}, 1),
    "gramschmidt": ({"M": 450, "N": 400}, 1),
    "lu": ({"N": 800}, 1),
    "ludcmp": ({"N": 800}, 1),
    "trisolv": ({"N": 2000}, 60),
    "deriche": ({"W": 1000, "H": 900}, 10),
    "floyd-warshall": ({"N": 600}, 1),
    "nussinov": ({"N": 1000}, 1),
    "adi": ({"T": 40, "N": 400}, 1),
    "fdtd-2d": ({"T": 100, "NX": 800, "NY": 900}, 1),
    "heat-3d": ({"T": 60, "N": 100}, 1),
    "jacobi-1d": ({"T": 10000, "N": 20000}, 1),
    "jacobi-2d": ({"T": 100, "N": 1000}, 1),
    "seidel-2d": ({"T": 100, "N": 1000}, 1),
}
# Why the first band of a kernel is one row that carries.
CAUSES = {
    "since the outermost loop goes on from what its last turn left": [
        "durbin", "gramschmidt", "floyd-warshall", "adi"],
    "since all turns write one cell, or one row, that stands for a scalar": ["doitgen", "symm", "ludcmp", "deriche"],
    "since the search takes loops together that might run one behind another, each of them parallel": [
        "correlation", "covariance", "atax", "gemver"],
}
WAYS = ["own", "graphite", "polly", "emitted", "serial"]
TILE = "32"
# The seconds after which a run is given up; its way is not run again.
PATIENCE = 20
WIDTH = 120


def asked(program, words, text):
    """What the program prints of a text, and what it says."""
    done = subprocess.run([program, *words], input=text.encode(), capture_output=True, check=False)
    return done.stdout.decode(), done.stderr.decode()


def head_of(kernel, mark):
    """The sentences behind a mark in the comment at a kernel's head."""
    head = " ".join(kernel.split("*/")[0].split())
    return [said.strip() for said in re.findall(rf"{mark}: (.*?)(?=Differs: |Refused: |$)", head)]


def probes_of(kernel, line):
    """Texts with a line of PolyBench's: alone under the kernel's head, in loops for the iterators that it names, and
    behind the kernel's statements; where the line is a head itself, it alone."""
    if line.startswith("void"):
        return [line + "\n"]
    text = kernel.split("*/", 1)[1].rstrip()
    loops = [f"for (int64_t {name} = 0; {name} < 1; {name}++)" for name in "ijk" if re.search(rf"\b{name}\b", line)]
    tried = " ".join([*loops, line]) + "\n}\n"
    return [text[:text.index("{") + 1] + tried, text[:-1] + tried]


def refusals_of(program, kernel):
    """The lines of PolyBench's that are refused, each with its kind."""
    told = []
    for line in head_of(kernel, "Refused"):
        said = [asked(program, ["schedule"], probe)[1] for probe in probes_of(kernel, line)]
        kinds = re.findall(r"refused: (\w+) ", "".join(said))
        if not kinds:
            sys.exit(f"it is not refused: {line}")
        told.append((kinds[0], line))
    return told


def rows_of(schedule):
    """The rows of a schedule, p where parallel and c where not, bands apart by a bar; and what runs at once by them."""
    bands = {}
    for band, kind in re.findall(r"^row \d+ band (\d+) (p|c)", schedule, re.MULTILINE):
        bands[band] = bands.get(band, "") + kind
    first = next(iter(bands.values()), "c")
    at_once = "all tiles" if "c" not in first else "nothing" if first == "c" else "tiles of a wave"
    return " \\| ".join(bands.values()), at_once


def certified(program, kernel):
    """Whether a kernel's schedule has a certificate that `check` accepts."""
    certificate, _ = asked(program, ["certify"], kernel)
    if certificate.startswith(("kept", "uncertified")):
        return "no"
    return "yes" if asked(program, ["check"], kernel + "%%\n" + certificate)[0] == "yes\n" else "rejected"


def plan_of(program, file):
    """What the page says of a kernel's plan but for times, by the names of columns."""
    kernel = kernel_of(file)
    schedule, _ = asked(program, ["schedule"], kernel)
    text, kept = asked(program, ["emit", "--tile", TILE], kernel)
    sources = asked(program, ["deps"], kernel)[0].splitlines()
    rows, at_once = rows_of(schedule)
    refusals = refusals_of(program, kernel)
    return {
        "refused": ", ".join(dict.fromkeys(kind for kind, _ in refusals)),
        "refusals": refusals,
        "differs": " ".join(head_of(kernel, "Differs")),
        "statements": str(max(int(number) for number in re.findall(r"/\* S(\d+) \*/", text))),
        "rows": rows,
        "at_once": at_once,
        "lines": str(len(text.splitlines())),
        "kept": kept.removeprefix("kept: "),
        "reads": len(sources),
        "unresolved": [line for line in sources if "unresolved" in line],
        "certificate": certified(program, kernel),
    }


def milliseconds(seconds):
    """Seconds as a cell of the page."""
    return f"{1000 * seconds:.{0 if seconds >= 0.1 else 1}f}"


def times_of(program, folder, rounds, name, file):
    """The cells of a kernel's times, by the names of columns."""
    planning, _ = shortest({"schedule": [program, "schedule"]}, rounds, file, subprocess.DEVNULL)
    programs, _ = programs_of(program, folder, TILE, file, *SIZES[name])
    times, given_up, wrong = timed_ways(name, programs, rounds, PATIENCE)
    cells = {way: (">" if way in given_up else "") + milliseconds(seconds) for way, seconds in times.items()}
    cells.update(dict.fromkeys(wrong, "wrong"))
    ratio = (">" if "emitted" in given_up else "") + f"{times['emitted'] / times['own']:.2f}"
    return {"planning": milliseconds(planning["schedule"]), **dict.fromkeys(WAYS, "-"), **cells, "ratio": ratio}


def cells_in(page):
    """The cells of each row of the page's tables, by the kernel in its first cell."""
    rows = [[cell.strip() for cell in re.split(r"(?<!\\)\|", line)[1:-1]] for line in page.splitlines()
            if line.startswith("| `")]
    return {name: [row for row in rows if row[0] == f"`{name}`"] for name in SIZES}


def standing_times(page):
    """The times that stand on the page, by the names of columns, for each kernel; dashes where none do."""
    found = {}
    for name, rows in cells_in(page).items():
        cells = [rows[0][-1], *rows[1][3:]] if len(rows) == 2 else ["-"] * (len(WAYS) + 2)
        found[name] = dict(zip(["planning", *WAYS, "ratio"], cells))
    return found


def table(heads, rows):
    """A table of the page."""
    lines = ["| " + " | ".join(heads) + " |", "|" + "---|" * len(heads)]
    return "\n".join(lines + ["| " + " | ".join(row) + " |" for row in rows])


def listed(names):
    """Names as a sentence has them."""
    quoted = [f"`{name}`" for name in names]
    return " and ".join([", ".join(quoted[:-1]), quoted[-1]] if len(quoted) > 1 else quoted) or "none"


def filled(text, indent=""):
    """A paragraph within the page's width."""
    return textwrap.fill(text, WIDTH, subsequent_indent=indent, break_long_words=False, break_on_hyphens=False)


def version_of(compiler):
    """The version of a compiler."""
    done = subprocess.run([compiler, "-dumpfullversion" if compiler == "gcc" else "-dumpversion"], capture_output=True,
                          check=False)
    return done.stdout.decode().strip()


def number(cell):
    """A cell of the page as a number."""
    return float(cell.lstrip(">"))


def ratios(plans, names):
    """Names with the ratios of their times, the least first."""
    ordered = sorted(names, key=lambda name: number(plans[name]["ratio"]))
    return ", ".join(f"`{name}` ({plans[name]['ratio']})" for name in ordered) or "none"


HEAD = """# PolyBench over integers

The thirty kernels of PolyBench/C 4.2, a suite of loops for polyhedral compilers, over `uint64_t`: written anew in
`bench/polybench`, with the loops, the statements and the arrays of the suite. Its cells are `double`, which Polypar
does not read; here they are whole numbers modulo 2^64. A scalar is an array of one cell. Where a statement divides,
takes a root or chooses by `?:`, it is refused, and another stands in its place; each such line stands below, with what
the kernel differs in.
Times were made on four cores of a shared machine, by gcc {gcc} and clang {clang}, in tiles of {tile}
({rounds}). The page is made by `bench/polybench.sh 3`; `bench/polybench.sh --quick` makes all
but the times. `tests/polybench.sh` compares what `run`, the emitted text and the kernel's own text leave of each."""


def plans_section(plans):
    """The table of plans, with what its columns say."""
    heads = ["Kernel", "Refused", "S", "Rows", "At once", "Lines", "Kept", "Unresolved", "Certificate", "ms"]
    rows = []
    for name, own in plans.items():
        unresolved = f"{len(own['unresolved'])} of {own['reads']}" if own["unresolved"] else "-"
        rows.append([f"`{name}`", own["refused"] or "-", own["statements"], own["rows"], own["at_once"], own["lines"],
                     own["kept"] or "-", unresolved, own["certificate"], own["planning"]])
    said = ("Refused: how lines of PolyBench's are refused (below). S: statements. Rows: p parallel, c carries, bands "
            "apart by a bar. At once: what of the emitted text may run at once, by the first band. Lines: of the "
            "emitted text. Kept: why the kernel's own order is kept. Unresolved: reads of which `deps` does not tell "
            "the last write. Certificate: whether `certify` prints one, and `check` accepts it. ms: the milliseconds "
            "of `schedule`, by processor time, the shortest of some rounds.")
    return "## Plans\n\n" + filled(said) + "\n\n" + table(heads, rows)


def times_section(plans):
    """The table of times, and what wins and what loses by it."""
    heads = ["Kernel", "Sizes", "Runs", "own", "graphite", "Polly", "emitted", "serial", "To own"]
    rows = []
    for name, own in plans.items():
        values, runs = SIZES[name]
        sizes = ", ".join(f"{size} {value}" for size, value in values.items())
        rows.append([f"`{name}`", sizes, str(runs), *(own[way] for way in WAYS), own["ratio"]])
    said = (f"Milliseconds by the clock of so many runs one behind another, the shortest of some rounds in turn: the "
            f"kernel's own text by `gcc -O2`, by gcc's polyhedral passes and by Polly, both with {THREADS} threads, "
            f"and the emitted text with {THREADS} threads and without OpenMP (serial); last, the emitted text's time "
            f"with threads to its own text's. All end with the same cells, but where a compiler's is called wrong. "
            f"Where a number stands behind >, a run was given up after so long.")
    return "## Times\n\n" + filled(said) + "\n\n" + table(heads, rows) + "\n\n" + outcome(plans)


def outcome(plans):
    """What wins and what loses, as paragraphs."""
    timed = {name: own for name, own in plans.items() if own["ratio"] != "-"}
    wins = [name for name, own in timed.items() if number(own["ratio"]) < 0.9]
    loses = [name for name, own in timed.items() if number(own["ratio"]) > 1.1]
    stay = [name for name in timed if name not in wins and name not in loses]
    polly = [name for name, own in timed.items() if own["polly"] not in ("-", "wrong")]
    faster = [name for name in polly if number(timed[name]["emitted"]) < number(timed[name]["polly"])]
    wrong = [name for name, own in timed.items() if "wrong" in (own["graphite"], own["polly"])]
    return "\n\n".join(filled(said) for said in [
        f"**What wins**, {len(wins)} of {len(timed)}, with the emitted text's time to its own text's: "
        f"{ratios(timed, wins)}. About equal: {ratios(timed, stay)}. The emitted text is faster than Polly's in "
        f"{len(faster)} of {len(polly)}: {listed(faster)}. A compiler's passes end with other cells than the kernel's "
        f"own text in {len(wrong)}: {listed(wrong)}.",
        f"**What loses**, {len(loses)}: {ratios(timed, loses)}.",
        f"**Where nothing runs at once**, the first band is one row, which carries, so each wave is one tile: "
        f"{causes_among(plans)}. Threads start for each tile and have nothing to share; without OpenMP (serial) such "
        f"a text takes what its loops take. The ratios of these: "
        f"{ratios(timed, [name for name, own in timed.items() if own['at_once'] == 'nothing'])}."])


def causes_among(plans):
    """Why nothing runs at once, with the kernels of each cause."""
    alone = [name for name, own in plans.items() if own["at_once"] == "nothing"]
    told = [(cause, [name for name in alone if name in names]) for cause, names in CAUSES.items()]
    told.append(("for another reason", [name for name in alone if not any(name in names for _, names in told)]))
    return "; ".join(f"{listed(names)} {cause}" for cause, names in told if names)


def refused_section(plans):
    """What is refused, by kinds, with the lines, and what each kernel differs in."""
    refusals = [(name, kind, line) for name, own in plans.items() for kind, line in own["refusals"]]
    parts = [filled("The lines are PolyBench's, over `uint64_t`, those of stencils with fewer terms; each was tried "
                    "under the kernel's own head, or behind its statements.")]
    for kind in dict.fromkeys(kind for _, kind, _ in refusals):
        lines = [f"    {name:15} {line}" for name, told, line in refusals if told == kind]
        parts.append(f"`refused: {kind}`:\n\n" + "\n".join(lines))
    groups = {}
    for name, own in plans.items():
        groups.setdefault(own["differs"], []).append(name)
    items = [filled(f"- {listed(names)}: {said}", "  ") for said, names in groups.items()]
    return "\n\n".join(["## What is refused, and what stands in its place", *parts,
                        "What each kernel differs in from PolyBench's:", "\n".join(items)])


def rest_section(plans):
    """What is kept, unresolved or has no certificate."""
    kept = [f"    {name:15} kept: {own['kept']}" for name, own in plans.items() if own["kept"]]
    unresolved = [f"    {name:15} {own['unresolved'][0]:40} {len(own['unresolved'])} of {own['reads']} reads"
                  for name, own in plans.items() if own["unresolved"]]
    bare = [name for name, own in plans.items() if own["certificate"] != "yes"]
    parts = ["## Kept, unresolved, without certificate", "The order is kept of " + ("these:" if kept else "none.")]
    parts += ["\n".join(kept)] * bool(kept)
    if unresolved:
        parts.append(filled("`deps` does not tell the last write of some reads of these; the first such line stands "
                            "here. Their schedules need less: where the last writes of an access are not found, all "
                            "its conflicts stand in their place."))
        parts.append("\n".join(unresolved))
    else:
        parts.append("`deps` tells the last write of each read.")
    return "\n\n".join([*parts, filled(f"Without a certificate: {listed(bare)}.")])


def main():
    program, folder, kernels, page, rounds, *names = sys.argv[1:]
    quick = rounds == "--quick"
    if any(name not in SIZES for name in names) or not quick and not re.fullmatch("[1-9][0-9]*", rounds):
        sys.exit("usage: polybench.sh [ROUNDS [NAME..] | --quick]")
    timed = [] if quick else names or list(SIZES)
    text, load = "", os.getloadavg()[0]
    if os.path.exists(page):
        with open(page, encoding="utf-8") as source:
            text = source.read()
    plans = {}
    for name, times in standing_times(text).items():
        file = os.path.join(kernels, name + ".c")
        if name in timed:
            times = times_of(program, folder, int(rounds), name, file)
        plans[name] = {**plan_of(program, file), **times}
        print(f"{name:15} {plans[name]['rows']}, schedule {times['planning']} ms, to own {times['ratio']}", flush=True)
    standing = re.search(r"rounds: \d+, begun at a load of \d+", text)
    rounds = standing.group() if standing and (quick or names) else f"rounds: {rounds}, begun at a load of {load:.0f}"
    head = HEAD.format(gcc=version_of("gcc"), clang=version_of("clang"), tile=TILE, rounds=rounds)
    sections = [head, plans_section(plans), times_section(plans), refused_section(plans), rest_section(plans)]
    with open(page, "w", encoding="utf-8") as out:
        out.write("\n\n".join(sections) + "\n")


main()
