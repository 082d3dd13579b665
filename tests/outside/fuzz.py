#!/usr/bin/env python3
"""Compares `plist_tool` with a second reader and writer (`second.py`) on mutated and random files.

Files written by Python's plistlib, and by plistutil (libplist) and plser (GNUstep) if they are
installed, are mutated, and ASCII texts are put together from random pieces. `print` and `convert` run
on each file. Their output, their status, and the file that `convert` writes must be what the second
reader and writer return.

If files are stored on a disk, most of the time is spent waiting for it; set `TMPDIR=/dev/shm`.

Usage: fuzz.py [CASES [SEED [WORKERS]]]

Needs the built `plist_tool` and a C compiler. Prints its counts at the end. The status is 1 if
anything differs.
"""
import collections
import multiprocessing
import pathlib
import random
import sys
import tempfile

import bounded
import mutations
import second

PROGRAM = pathlib.Path(__file__).resolve().parents[2] / "crates/plist_tool/out/plist_tool"
MOST_ITEMS = 3000
# the number of files that are run together, and the most processor seconds of a run
BATCH, SECONDS = 100, 60


# ---- the expected results

def told(fault):
    return f"Error: {fault.text}\n".encode() if fault else b""


def to_print(data):
    events, fault = second.binary_items(data, MOST_ITEMS)
    lines = "".join(second.line_of(event) + "\n" for event in events)
    return (1 if fault else 0), lines.encode(), told(fault)


def to_convert(data):
    try:
        return 0, second.file_of(second.value_of(second.items_of_input(data, MOST_ITEMS))), b""
    except second.Fault as fault:
        return 1, None, told(fault)


class Case:
    """The bytes of a file, the expected results, and the paths for the commands."""

    def __init__(self, folder, data):
        self.data, self.printed, self.converted = data, to_print(data), to_convert(data)
        self.source, self.made = folder / "in", folder / "made"
        self.told = {command: (folder / f"{command}.shown", folder / f"{command}.error")
                     for command in ("print", "convert")}
        folder.mkdir(exist_ok=True)

    def begin(self):
        """Writes the file, and returns the runs."""
        self.source.write_bytes(self.data)
        self.made.unlink(missing_ok=True)
        return [([PROGRAM, command, self.source, *output], 0, SECONDS, *self.told[command])
                for command, output in (("print", []), ("convert", [self.made]))]

    def found(self, command, ended):
        """Returns the status (negative for a signal), the standard output and the standard error."""
        return -ended.signal or ended.status, *(path.read_bytes() for path in self.told[command])

    def differences(self, first, second_one):
        """Returns what differs from the expected results of the two commands."""
        if (found := self.found("print", first)) != self.printed:
            yield "print", found, self.printed
        status, silent, error = self.found("convert", second_one)
        found = status, self.made.read_bytes() if self.made.exists() else None, error
        if found != self.converted or silent:
            yield "convert", found, self.converted


def some_cases(chance, folder, pool, count, counts):
    """Returns this many cases. Those with too many items are only counted."""
    for number in range(count):
        try:
            yield Case(folder / str(number), mutations.some_file(chance, pool))
        except second.TooMany:
            counts["too many items, left out"] += 1


def judge(case, ended, counts):
    counts["binary" if case.data.startswith(second.MAGIC) else "other"] += 1
    counts["converted"] += case.made.exists()
    for command, what, expected in case.differences(next(ended), next(ended)):
        counts["different"] += 1
        print(f"{command} of {case.data.hex()}: {what!r} in place of {expected!r}", flush=True)


def work(words):
    count, seed = words
    chance, counts = random.Random(seed), collections.Counter()
    with tempfile.TemporaryDirectory() as name:
        folder = pathlib.Path(name)
        starter = bounded.Starter(folder)
        for start in range(0, count, BATCH):
            if start % (20 * BATCH) == 0:
                pool = [data for _ in range(20) for data in mutations.from_others(chance, folder)]
            cases = list(some_cases(chance, folder, pool, min(BATCH, count - start), counts))
            ended = iter(starter.run_all([run for case in cases for run in case.begin()]))
            for case in cases:
                judge(case, ended, counts)
        starter.close()
    return counts


def main():
    cases, seed, workers = (int(word) for word in (sys.argv[1:] + ["1000", "1", "2"][len(sys.argv) - 1:]))
    with multiprocessing.Pool(workers) as pool:
        shares = [(cases // workers + (i < cases % workers), seed * 1000 + i) for i in range(workers)]
        counts = sum(pool.map(work, shares, chunksize=1), collections.Counter())
    for name, count in sorted(counts.items()):
        print(f"{name}: {count}")
    return 1 if counts["different"] else 0


if __name__ == "__main__":
    sys.exit(main())
