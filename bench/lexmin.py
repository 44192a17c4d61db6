"""Times test_cases against isl on the cases of a file that have a quast, with and without parameters apart. Called by
lexmin.sh. Both programs read the same text and solve each problem TIMES times over; what they take with TIMES at 1 is
taken off, so that neither reading nor printing is in the time."""

import re
import sys
import tempfile

from timing import rounds_of, shortest

WANTED_MOVES = 50000

program, baseline, cases_file = sys.argv[1:4]
rounds = rounds_of(sys.argv[4:], 5)
programs = {"polypar": program}
if baseline:
    programs["isl"] = baseline
with open(cases_file, encoding="latin-1", newline="") as text:
    cases = re.findall(r"^problem .*\n(?:(?:row|context) .*\n)*answer .*\n", text.read(), re.MULTILINE)


def moves_of(case):
    """How many moves the case's answer tells."""
    return int(case.split("answer quast ")[1].split()[0])


def seconds_a_pass(chosen, passes):
    """What each program takes to solve these cases once, without reading and printing."""
    commands = {}
    for name, path in programs.items():
        commands[name] = [path, str(passes + 1)]
        commands[f"{name} once"] = [path, "1"]
    with tempfile.NamedTemporaryFile("w") as text:
        text.write("".join(chosen))
        text.flush()
        times, _ = shortest(commands, rounds, text.name)
    return {name: (times[name] - times[f"{name} once"]) / passes for name in programs}


solved = [case for case in cases if "answer quast " in case]
kinds = {
    "without parameters": [case for case in solved if case.split()[2] == "0"],
    "with parameters": [case for case in solved if case.split()[2] != "0"],
}
for kind, chosen in kinds.items():
    moves = sum(moves_of(case) for case in chosen)
    if moves == 0:
        print(f"{kind}: no cases")
        continue
    seconds = seconds_a_pass(chosen, -(-WANTED_MOVES // moves))
    own = seconds["polypar"]
    line = f"{kind}: {len(chosen)} cases, {moves} moves, polypar {1e6 * own / moves:.2f} us a move"
    if baseline:
        other = seconds["isl"]
        line += f", polypar {1e3 * own:.3f} ms, isl {1e3 * other:.3f} ms, isl / polypar {other / own:.2f}"
    print(f"{line} (shortest of {rounds})")
