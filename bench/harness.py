"""C programs round a text of a kernel: parameters, arrays and one function to call."""

import os
import re
import subprocess

COMMENTS = re.compile(r"/\*.*?\*/|//[^\n]*", re.DOTALL)
HEADER = re.compile(r"void\s+(\w+)\s*\(([^)]*)\)")
ARRAY = re.compile(r"(uint(?:32|64)_t)\s+(\w+)\s*((?:\[[^\]]*\]\s*)+)")


def signature_of(kernel):
    """The kernel's name, and its parameters in order: a type and a name with the extents of an array, or with none."""
    name, header = HEADER.search(COMMENTS.sub(" ", kernel)).groups()
    parameters = []
    for parameter in header.split(","):
        array = ARRAY.search(parameter)
        if array is None:
            parameters.append(("int64_t", parameter.split()[-1], []))
        else:
            parameters.append((*array.group(1, 2), re.findall(r"\[([^\]]*)\]", array.group(3))))
    return name, parameters


def arrays_of(kernel):
    """The arrays' names in order, each with the number of its cells as C text."""
    return [(name, "*".join(f"(size_t)({extent})" for extent in extents))
            for _, name, extents in signature_of(kernel)[1] if extents]


def numbers_of(kernel):
    """The names of the parameters that are no arrays."""
    return [name for _, name, extents in signature_of(kernel)[1] if not extents]


def declarations(kernel, values):
    """C lines that declare the parameters with these values, and the arrays with zeros."""
    types = {name: own for own, name, _ in signature_of(kernel)[1]}
    lines = [f"  int64_t {name} = {values[name]};" for name in numbers_of(kernel)]
    return lines + [f"  {types[name]} *{name} = calloc({cells}, sizeof *{name});" for name, cells in arrays_of(kernel)]


def call_of(kernel):
    """The call of the kernel's function."""
    name, parameters = signature_of(kernel)
    arguments = [f"(void *){own}" if extents else own for _, own, extents in parameters]
    return f"{name}({', '.join(arguments)});"


def run_of(kernel, data):
    """C lines that run the kernel on data, the words of each line by its name, and print all arrays as `run` does."""
    lines = declarations(kernel, {name: data[name][0] for name in numbers_of(kernel)})
    for name, cells in arrays_of(kernel):
        words, each = data.get(name), f"  for (size_t k = 0; k < {cells}; k++)"
        if words and words[0] == "seed":
            lines.append(f"{each} {name}[k] = ({words[1]}u + k + 1) * 11400714819323198485u;")
        elif words:
            lines += [f"  const uint64_t {name}_list[] = {{{'u, '.join(words)}u}};",
                      f"{each} {name}[k] = {name}_list[k];"]
    lines.append("  " + call_of(kernel))
    for name, cells in arrays_of(kernel):
        each = f"  for (size_t k = 0; k < {cells}; k++)"
        lines += [f'  printf("{name} =");', f'{each} printf(" %llu", (unsigned long long){name}[k]);',
                  '  printf("\\n");']
    return lines


def built(folder, name, text, compiler):
    """The program that a compiler makes of a text, and what it says; no program where it can't."""
    source, program = os.path.join(folder, name + ".c"), os.path.join(folder, name)
    with open(source, "w", encoding="utf-8") as out:
        out.write(text)
    done = subprocess.run([*compiler, "-o", program, source], capture_output=True, check=False)
    return program if done.returncode == 0 else None, done.stderr.decode()
