"""Makes the page of a kernel with tools/explore, reads what it tells, and compares that with the program's answers.

usage: explore.py FILE [NAME=VALUE ..]; the program is that of the environment variable POLYPAR, else ./polypar.

How many tiles and waves each size of tiles has is to be what `run --report` says, and what each read gets is to be what
`deps` says, by a reading of quasts of its own. Where there is a Chromium it opens the page, moves the slider from its
beginning to its end at each size, and goes to each instance: what the page then tells is compared, and not its data
alone. Says what is wrong, if anything, and ends with status 1 then.
"""

import html
import json
import os
import re
import shutil
import subprocess
import sys
import tempfile

ROOT = os.path.join(os.path.dirname(os.path.abspath(__file__)), "..")
sys.path.insert(0, os.path.join(ROOT, "tools"))
import kernel_reader  # noqa: E402

BROWSER = next(filter(None, map(shutil.which, ("chromium", "chromium-browser", "google-chrome"))), None)
MOST_BYTES = 300_000
# What a reader of the page does: each size, each place of the slider; each turn of a third loop, each instance.
STEPS = """<script>{
const heard = {waves: [], told: []}, turns = [...part("slice").options].map(turn => turn.value);
const change = (of, value, kind) => { of.value = value; of.dispatchEvent(new Event(kind)); };
for (const size of document.querySelectorAll("#sizes input")) {
  size.click();
  for (let wave = 0; wave <= Number(part("wave").max); wave++) {
    change(part("wave"), wave, "input");
    heard.waves.push([size.value, part("now").textContent]);
  }
}
for (const turn of turns.length ? turns : [null]) {
  if (turn) change(part("slice"), turn, "change");
  for (const instance of document.querySelectorAll("[role=option]")) {
    instance.dispatchEvent(new FocusEvent("focus"));
    const lines = [...part("told").querySelectorAll("li")].map(line => line.textContent);
    heard.told.push([part("told").firstChild.textContent, lines, part("flow").children.length]);
  }
}
document.body.append(make("pre", {id: "heard"}, JSON.stringify(heard)));
}</script>"""


def heard_of(page):
    """What a browser tells of a page by those steps."""
    with tempfile.TemporaryDirectory() as folder:
        with open(os.path.join(folder, "page.html"), "w", encoding="utf-8") as file:
            file.write(page + STEPS)
        words = ["--headless", "--no-sandbox", "--disable-gpu", f"--user-data-dir={folder}", "--dump-dom"]
        done = subprocess.run([BROWSER, *words, f"file://{folder}/page.html"], capture_output=True, check=False)
    found = re.search(r'<pre id="heard">(.*?)</pre>', done.stdout.decode(), re.DOTALL)
    return json.loads(html.unescape(found[1])) if found else None


def writer_of(quast, values, turns):
    """The statement and the turns that a quast names at an instance, or None."""
    for pattern, text in ((r"let #(\d+) = floor\((.*?) / (\d+)\) \{", r"bind((\2) // \3, lambda q\1: "),
                          (r"if (.*?) >= 0 \{", r"pick(\1, lambda: "), (r"\} else \{", r", lambda: "), (r"\}", ")"),
                          (r"S(\d+) \(\)", r"(\1, ())"), (r"S(\d+) \(([^()]*)\)", r"(\1, (\2,))"),
                          ("initial", "None"), (r"\$(\d+)", r"t\1"), (r"#(\d+)", r"q\1")):
        quast = re.sub(pattern, text, quast)
    names = {f"t{k}": turn for k, turn in enumerate(turns, 1)}
    return eval(quast, {"pick": lambda value, one, other: one() if value >= 0 else other(),
                        "bind": lambda value, body: body(value), **values, **names})


def named(instance):
    """An instance as the page tells it."""
    places = ", ".join(f"{name} = {value}" for name, value in instance.iterators.items())
    return f"S{instance.number}" + (places and f" at {places}")


def wanted_of(text, reader, values):
    """Of each instance its name, and what `deps` says that its reads get: a name, or None."""
    quasts = dict(re.findall(r"(S\d+ read \d+ \w+): (.*)", kernel_reader.ask(["deps"], text)[0]))
    instances = {(one.number, one.turns): one for one in reader.instances(values)}
    for number, turns in instances:
        cells = instances[number, turns].cells
        writers = [writer_of(quasts[f"S{number} read {read} {array}"], values, turns)
                   for read, (array, _) in enumerate(cells[1:], 1)]
        told = [array + "".join(f"[{index}]" for index in indices) for array, indices in cells]
        yield named(instances[number, turns]), told, [writer and named(instances[writer]) for writer in writers]


def faults_of_waves(heard, counts):
    """What is wrong with what the slider tells of each size, which has so many tiles and waves by the report."""
    for size, (tiles, waves) in counts.items():
        told = [line for other, line in heard if other == size]
        rows = [list(map(int, re.findall(r"(\d+) (?:finished|running|waiting)", line))) for line in told]
        names = ["Before wave 1", *(f"Wave {wave} of {waves}" for wave in range(1, waves + 1)), "Behind the last wave"]
        if [line.partition(";")[0] for line in told] != names:
            yield f"edge {size}: {waves} waves, and the slider tells {told}"
        elif any(sum(row) != tiles for row in rows) or rows[0][2] != tiles or rows[-1][0] != tiles:
            yield f"edge {size}: {tiles} tiles, and the slider tells {told}"
        elif any(row[1] == 0 or row[0] + row[1] != after[0] for row, after in zip(rows[1:-1], rows[2:])):
            yield f"edge {size}: tiles do not finish behind their wave: {told}"


def faults_of_reads(heard, wanted):
    """What is wrong with what the page tells of the cells and the sources of each instance."""
    told = {name: (lines, arrows) for name, lines, arrows in heard}
    for name, (written, *read), writers in wanted:
        lines = [f"reads {cell}" + (f" from {writer}" if writer else ", not written before")
                 for cell, writer in zip(read, writers)] + [f"writes {written}"]
        found, arrows = told.pop(name, ([], 0))
        if [line.partition(" (")[0] for line in found] != lines or arrows != len(set(writers) - {None}):
            yield f"{name}: {lines} expected, {found} with {arrows} arrows told"
    yield from (f"{name} is told, and no instance" for name in told)


def faults_of_data(data, counts, wanted):
    """What is wrong with the data of a page."""
    for size in data["sizes"]:
        if (len(size["tiles"]), len({wave for _, wave in size["tiles"]})) != counts[str(size["size"])]:
            yield f"edge {size['size']}: {counts[str(size['size'])]} expected"
    names = [name for name, _, _ in wanted]
    for (name, cells, writers), places, sources in zip(wanted, data["cells"], data["sources"]):
        read = [names[at] if at >= 0 else None for at in sources]
        if [data["names"][at] for at in places] != cells or read != writers:
            yield f"{name}: other cells or sources"


def main(words):
    """Says what is wrong with a page."""
    done = subprocess.run([os.path.join(ROOT, "tools", "explore"), *words], capture_output=True, check=False)
    page = done.stdout.decode()
    if done.returncode or len(done.stdout) > MOST_BYTES or re.search(r"""(src|href)=['"]?\w|@import|url\(\w""", page):
        sys.exit(f"status {done.returncode}, {len(page)} bytes, or it needs what is not there: {done.stderr.decode()}")
    data = json.loads(re.search(r'<script type="application/json" id="data">(.*?)</script>', page)[1])
    with open(words[0], encoding="latin-1", newline="") as source:
        text, lines = kernel_reader.cut(source.read())
    reader = kernel_reader.Kernel(text)
    values = {name: int(re.findall(rf"(?m)^{name} *= *(\d+)", "\n".join([lines, *words[1:]]))[-1])
              for name in reader.parameters}
    case = text + "\n%%\n" + "".join(f"{name} = {value}\n" for name, value in values.items())
    counts = {}
    for size in (str(cut["size"]) for cut in data["sizes"]):
        report = kernel_reader.ask(["run", "--report", "--tile", size], case)[1]
        counts[size] = tuple(map(int, re.search(r"tiles (\d+) waves (\d+)", report).groups()))
    wanted = list(wanted_of(text, reader, values))
    faults = list(faults_of_data(data, counts, wanted))
    if BROWSER:
        heard = heard_of(page) or sys.exit("the browser told nothing")
        faults += [*faults_of_waves(heard["waves"], counts), *faults_of_reads(heard["told"], wanted)]
    sys.exit("\n".join(faults) or 0)


main(sys.argv[1:])
