"""Times the steps of crates/bench_cases against plain C. Called by forms.sh."""

import sys

from timing import rounds_of, shortest

STEPS = {"multiply_add": 20000000, "multiply_add_wide": 20000000, "value_at": 10000000, "row_operation": 20000}

program, baseline = sys.argv[1:3]
rounds = rounds_of(sys.argv[3:], 11)
for kind, steps in STEPS.items():
    commands = {}
    for name, command in {"polypar": program, "gcc -O2": baseline}.items():
        commands[name] = [command, kind, str(steps)]
        commands[f"start of {name}"] = [command, kind, "0"]
    times, printed = shortest(commands, rounds)
    if printed["polypar"] != printed["gcc -O2"]:
        sys.exit(f"{kind}: the checksums differ")
    own, other = (1e9 * (times[name] - times[f"start of {name}"]) / steps for name in ("polypar", "gcc -O2"))
    print(f"{kind}: polypar {own:.2f} ns, gcc -O2 {other:.2f} ns, ratio {own / other:.2f} (shortest of {rounds})")
