"""Compares what tools/explain tells with stored answers, and with all conflicts at small parameters.

usage: explained.py [write]; POLYPAR is the program. Kernels are those of examples/ and known ones among the stored calls
of crates/test_cases; the answers stand in tests/explain/, and `write` writes them. Then what `--all` tells of each item
has to be exactly what a loop over all pairs of instances finds: of two that touch one cell, of which one writes it and
none between them does, the second reader of certificates has to know the conflict, no row of a band may fall, a
parallel one may not rise, and the first item that rises, with its band, has to carry it. Prints how many kernels passed.
"""

import collections
import importlib.machinery
import importlib.util
import itertools
import os
import re
import subprocess
import sys
import tempfile

ROOT = os.path.join(os.path.dirname(os.path.abspath(__file__)), "..")
sys.path.insert(0, os.path.join(ROOT, "bench"))
from kernel_texts import kernel_in, records_in  # noqa: E402

KNOWN = """run-mm-1 run-pascal-1 run-reverse-1 run-iir-1 plan-sweep-over-a-plane plan-kept-by-the-scan run-2mm run-adi run-bicg
run-cond_border run-correlation run-doitgen run-even_odd run-fdtd_2d run-game_of_life run-gemver run-gramschmidt
reduce-syrk reduce-trisolv reduce-sum-1 expand-symm expand-transpose_inplace expand-wavefront_dp expand-expand-workers-1
run-crc-1 run-fir-1 schedule-steep-2 certify-no-row tiles-untold limit-deps""".split()
MOST_INSTANCES = 300
TOLD = re.compile(r"(?:row (\d+) carries|scalar (\d+) orders): S(\d+) (writes|reads) (.*) \(line (\d+)\), "
                  r"(read|written|written again) as (.*) by S(\d+) \(line (\d+)\)(?:, distance (.*))?; "
                  r"first at (.*) -> (.*) \((flow|anti|output)\)")
KINDS = {("writes", "read"): "flow", ("reads", "written"): "anti", ("writes", "written again"): "output"}


def second_reader():
    """tools/check_certificate as a module."""
    loader = importlib.machinery.SourceFileLoader("check_certificate", os.path.join(ROOT, "tools", "check_certificate"))
    module = importlib.util.module_from_spec(importlib.util.spec_from_loader(loader.name, loader))
    loader.exec_module(module)
    return module


def inputs():
    """The names and inputs of all kernels."""
    names = sorted(name for name in os.listdir(os.path.join(ROOT, "examples")) if re.fullmatch(r"\w+\.c", name))
    for name in names:
        with open(os.path.join(ROOT, "examples", name), encoding="latin-1", newline="") as source:
            yield name[:-2], source.read()
    with open(os.path.join(ROOT, "crates", "test_cases", "stdin"), encoding="latin-1", newline="") as source:
        records = dict(records_in(source.read()))
    yield from ((name, records[name]) for name in KNOWN)


def explained(file, *words):
    """What tools/explain tells."""
    done = subprocess.run([os.path.join(ROOT, "tools", "explain"), *words[:1], file, *words[1:]], capture_output=True,
                          check=False)
    return (done.stdout + done.stderr).decode("latin-1")


def span_of(text):
    """The least and the greatest of each number of a told distance."""
    parts = text.strip("()").split(", ") if text else []
    return tuple((int(part.split(" to ")[0]), int(part.split(" to ")[-1])) for part in parts)


def told_in(answer):
    """What lines tell, as tuples; of a line that is none of the form, the line itself."""
    for line in answer.splitlines():
        found = TOLD.fullmatch(line)
        if found:
            row, scalar, s, verb, place, line_s, then, other, t, line_t, distance, first, last, kind = found.groups()
            assert kind == KINDS[verb, then], line
            yield (int(row or scalar), kind, int(s), place, int(line_s), int(t), other, int(line_t), span_of(distance),
                   first, last)
        elif " carries: S" in line or " orders: S" in line or " more (" in line:
            yield line


def at(instance):
    """The values of an instance's iterators, as they are told."""
    return ", ".join(f"{name} = {number}" for name, number in instance.iterators.items()) or f"S{instance.number}"


def turns_within(check, kernel, number, most, values):
    """The turns of a statement, none of them above so many, at which all tests round it hold."""
    statement = kernel.statements[number - 1]
    for turns in itertools.product(range(most + 1), repeat=len(statement.loops)):
        names = {None: 1, **values, **{f"${k}": turn for k, turn in enumerate(turns, 1)}}
        sums = [(kind, sum(c * names[name] for name, c in form.items())) for kind, form in statement.tests]
        if all(total == 0 if kind == "equality" else total >= 0 for kind, total in sums):
            yield turns


def direct_pairs(kernel, instances):
    """Two instances with an access of each to one cell that one of them writes, and none between does."""
    for at_x, x in enumerate(instances):
        for a, cell in enumerate(x.cells):
            for y in instances[at_x + 1:]:
                own = a > 0 and x.cells[0] == cell
                for b, other in list(enumerate(y.cells))[::-1]:
                    if other == cell and (a == 0 or b == 0) and not own:
                        yield x, a, y, b
                if own or y.cells[0] == cell:
                    break


def is_known(check, kernel, values, pair):
    """Whether the second reader has the conflict, at one depth."""
    x, a, y, b = pair
    source, target = kernel.statements[x.number - 1], kernel.statements[y.number - 1]
    common = sum(loop is other for loop, other in zip(source.loops, target.loops))
    point, count = [*x.turns, *y.turns, *values.values(), 1], 0
    for depth in range(common + (x.number < y.number)):
        system = check.system_of(kernel, source, target, a, b, depth, depth < common)
        sums = [[sum(c * v for c, v in zip(row, point)) for row in rows] for rows in system[3:]]
        count += not any(sums[0]) and all(total >= 0 for total in sums[1])
    return count == 1


def carriers(items, x, y):
    """The numbers of the items that carry, or None where one falls or a parallel row rises."""
    def worth(item, instance):
        form = item[-1][instance.number - 1]
        return form if item[0] == "scalar" else sum(c * turn for c, turn in zip(form[0], instance.turns)) + form[1]
    rises = [worth(item, y) - worth(item, x) for item in items]
    first = next((k for k, rise in enumerate(rises) if rise), None)
    if first is None:
        return None
    band = [k for k, item in enumerate(items) if item[0] == "row" and item[1] == items[first][1]]
    band = band if items[first][0] == "row" else [first]
    if any(rises[k] < 0 or rises[k] and items[k][0] == "row" and items[k][2] for k in band):
        return None
    return [k + 1 for k in band if rises[k]]


def wanted(check, kernel, items, values, instances):
    """What has to be told, as tuples."""
    places, groups = {id(instance): k for k, instance in enumerate(instances)}, collections.defaultdict(list)
    for pair in direct_pairs(kernel, instances):
        x, a, y, b = pair
        kind = "output" if a == b == 0 else "flow" if a == 0 else "anti"
        numbers = carriers(items, x, y)
        if numbers is None or not is_known(check, kernel, values, pair):
            yield f"{kind} from {x} to {y}"
            continue
        place, other = kernel.statements[x.number - 1].accesses[a], kernel.statements[y.number - 1].accesses[b]
        for number in numbers:
            groups[number, kind, x.number, place.text, place.line, y.number, other.text, other.line].append((x, y))
    for key, pairs in groups.items():
        first, last = min(pairs, key=lambda pair: (places[id(pair[1])], places[id(pair[0])]))
        loops = (kernel.statements[end.number - 1].loops for end in (first, last))
        common = [loop.iterator for loop, other in zip(*loops) if loop is other]
        steps = [[y.iterators[name] - x.iterators[name] for x, y in pairs] for name in common]
        yield (*key, tuple((min(step), max(step)) for step in steps), at(first), at(last))


def faults_of(check, file, text):
    """What is wrong with the dependences that are told of a kernel."""
    kernel = check.Kernel(kernel_in(text))
    answer = explained(file, "--all")
    if int(re.search(r": instances (\d+)", answer)[1]) > MOST_INSTANCES:
        answer = explained(file, "--all", *(f"{name}=2" for name in kernel.parameters))
    values = {name: int(number) for name, number in re.findall(r"(\w+) = (\d+)", answer.splitlines()[0])}
    instances = list(kernel.instances(values))
    for number in range(1, len(kernel.statements) + 1):
        own = [instance.turns for instance in instances if instance.number == number]
        most = max(itertools.chain([0], *own)) + 1
        if sorted(own) != sorted(turns_within(check, kernel, number, most, values)):
            yield f"instances of S{number}"
    done = subprocess.run([os.environ["POLYPAR"], "schedule"], input=text.encode("latin-1"), capture_output=True,
                          check=True)
    items = []
    for line in done.stdout.decode().splitlines():
        if not line.startswith("kept: "):
            items.append(check.item_of(line, items, [len(statement.loops) for statement in kernel.statements]))
    told, right = list(told_in(answer)), list(wanted(check, kernel, items, values, instances)) if items else []
    yield from (f"told: {line}" for line in set(told) - set(right))
    yield from (f"missing: {line}" for line in set(right) - set(told))
    if len(told) != len(set(told)):
        yield "told twice"


def main():
    check, failed, passed = second_reader(), 0, 0
    with tempfile.TemporaryDirectory() as folder:
        for name, text in inputs():
            file, stored = os.path.join(folder, name + ".c"), os.path.join(ROOT, "tests", "explain", name + ".txt")
            with open(file, "w", encoding="latin-1", newline="") as out:
                out.write(text)
            answer = explained(file)
            if sys.argv[1:] == ["write"]:
                with open(stored, "w", encoding="latin-1", newline="") as out:
                    out.write(answer)
            with open(stored, encoding="latin-1", newline="") as source:
                faults = [] if source.read() == answer else ["the stored answer is another one"]
            faults += faults_of(check, file, text)
            for fault in faults[:5]:
                print(f"{name}: {fault}")
            failed, passed = failed + bool(faults), passed + (not faults)
    print(f"{passed} passed, {failed} failed")
    return bool(failed)


if __name__ == "__main__":
    sys.exit(main())
