#!/usr/bin/env python3
"""Compares the Python package with a second reader and writer (`second.py`) on mutated and random files.

The files are those of fuzz.py. What examples/print.py prints for a file must be the lines and the error
of its items. `loads` must raise the error that the second reader has for the value, or return it.
`dumps` must then write the file that the second writer writes for that value. (A value of Python has no
reals of four bytes, and its dates have microseconds, so the second writer is given the value that it
reads in what `dumps` wrote.)

Usage: fuzz_python.py [FILES [SEED]]      20000 files by default

Needs the archive of crates/plist_c, the kit and a C compiler, but no built `plist_tool`. Prints its
counts at the end. The status is 1 if anything differs.
"""
import collections
import pathlib
import random
import sys
import tempfile

import mutations
import python_package
import second

sizhetom = python_package.build()
sys.path.insert(0, str(python_package.SOURCE / "examples"))
import print as printing  # noqa: E402

NO_LIMITS = {"max_depth": None, "max_events": None, "max_bytes": None}
MOST_ITEMS = 3000
# the number of files after which others are mutated
BATCH = 5000


def printed(items):
    """Returns what is printed to standard output and standard error for items."""
    lines = []
    for item in items:
        if isinstance(item, second.Fault):
            return "".join(lines).encode(), f"Error: {item.text}\n".encode()
        lines.append(second.line_of(item) + "\n")
    return "".join(lines).encode(), b""


def fault_of(items):
    """Returns the error of reading these items as a value, or an empty text."""
    try:
        second.value_of(items)
    except second.Fault as fault:
        return fault.text
    return ""


def differences(data, items, counts):
    """Yields what differs for a file with these items."""
    if printing.printed(data) != printed(items):
        yield "print.py"
    expected = fault_of(items)
    try:
        value = sizhetom.loads(data, **NO_LIMITS)
    except sizhetom.PlistError as error:
        # Only datetime lacks the years before 1.
        if str(error) not in (expected, "" if expected else "YearOutOfRange"):
            yield "the error of loads"
        counts["faults"] += 1
        return
    if expected:
        yield "the error of loads"
    made = sizhetom.dumps(value)
    if second.file_of(second.value_of(second.items_of_input(made, MOST_ITEMS))) != made:
        yield "the file of dumps"
    if sizhetom.dumps(sizhetom.loads(made, **NO_LIMITS)) != made:
        yield "the value that was written"
    counts["values"] += 1


def compare(data, counts):
    try:
        items = second.items_of_input(data, MOST_ITEMS)
    except second.TooMany:
        items = [None] * (MOST_ITEMS + 1)
    if len(items) > MOST_ITEMS:
        counts["too many items, left out"] += 1
        return
    for what in differences(data, items, counts):
        counts["different"] += 1
        print(f"{what}: {data.hex()}", flush=True)


def main(words):
    count, seed = [int(word) for word in words] + [20000, 1][len(words):]
    chance, counts = random.Random(seed), collections.Counter()
    with tempfile.TemporaryDirectory() as name:
        for number in range(count):
            if number % BATCH == 0:
                pool = [data for _ in range(20) for data in mutations.from_others(chance, pathlib.Path(name))]
            compare(mutations.some_file(chance, pool), counts)
    for name, number in sorted(counts.items()):
        print(f"{name}: {number}")
    return 1 if counts["different"] else 0


if __name__ == "__main__":
    sys.exit(main(sys.argv[1:]))
