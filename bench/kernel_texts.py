"""The kernels of files like those of examples/, and of records of calls, as crates/test_cases reads them."""

import os


def kernel_in(text):
    """The kernel's text: what stands before the line `%%`."""
    return text.split("\n%%\n")[0] + "\n"


def kernel_of(file):
    """The kernel of a file."""
    with open(file, encoding="utf-8") as source:
        return kernel_in(source.read())


def records_in(text):
    """The names and inputs of records: `case NAME EXIT INPUT OUT ERR WORD ..`, then three texts of these lengths."""
    while text.startswith("case "):
        head, _, text = text.partition("\n")
        words = head.split()
        lengths = [int(length) + 1 for length in words[3:6]]
        yield words[1], text[:lengths[0]]
        text = text[sum(lengths):]


def kernels_of(file):
    """The kernels of a file with their names: those of its records, or its own."""
    with open(file, encoding="latin-1", newline="") as source:
        text = source.read()
    if text.startswith("case "):
        return [(name, kernel_in(case)) for name, case in records_in(text)]
    return [(os.path.basename(file), kernel_in(text))]
