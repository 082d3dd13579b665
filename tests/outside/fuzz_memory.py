#!/usr/bin/env python3
"""Runs `plist_tool` on mutated files under a small limit of its address space, as `ulimit -v` sets it.

`print`, `convert` and `keyed` run on each file. The limit is the smallest one under which all three
do the same with each unmutated file as they do with enough memory. There are two limits. The one
for files of some hundred bytes is little more than what the program and its call stack need to
start. The other one is for files of some 200 kB. The script finds both first, unless KIB sets both.
Half of the larger files run under a lower limit, down to the first one, so that allocations fail at
different points.
Each run must end with status 0 or 1, and never by a signal:

- With status 0 nothing is printed on standard error. With status 1 one line is printed there, which
  says what the fault is.
- OUT of `convert` is unchanged, or, with status 0, a complete binary property list whose table of
  offsets ends where its trailer begins. In a tenth of the cases IN is OUT.
- What was printed before an allocation failed is a prefix of what is printed with enough memory.

If OUT is stored on a disk, most of the time is spent waiting for it; set `TMPDIR=/dev/shm`.

Usage: fuzz_memory.py [CASES [SEED [WORKERS [KIB]]]]      CASES is 10,000 by default

Needs the built `plist_tool` and a C compiler. Prints its counts at the end. The status is 1 if a run
breaks one of these rules.
"""
import collections
import multiprocessing
import pathlib
import plistlib
import random
import re
import sys
import tempfile
import time

import bounded
import mutations
import second
import speed

OLDER = b"an older file"
TOLD = re.compile(rb"Error: [^\n]+\n")
SHORT_OF_MEMORY = b"Error: OutOfMemory"
# the limits of a run with enough memory, in KiB and in seconds
AMPLE, SECONDS = 1 << 20, 20
MOST_ROOM = 64 << 10
COMMANDS = ("print", "keyed", "convert")
# the number of files that are run together
BATCH = 100
# the share of the files that are large
LARGE = 0.02


# ---- files to begin with

def archive(chance):
    """Returns a keyed archive whose objects refer to later ones, and some to others, even in cycles."""
    count, objects = chance.randrange(3, 9), ["$null"]

    def uid():
        later = min(count - 1, len(objects) + chance.randrange(1, 3))
        return plistlib.UID(later if chance.random() < 0.95 else chance.randrange(count))

    while len(objects) < count - 1:
        objects.append(chance.choice([
            lambda: [uid() for _ in range(3)], lambda: {"NS.objects": [uid(), uid()], "$class": uid()},
            lambda: {"next": uid(), "name": "one"}, lambda: chance.choice(["a text", 5, 1.5, b"data"]),
        ])())
    return mutations.archive_of([*objects, "end"], 1)


def small_files(chance, folder):
    """Yields files of some hundred bytes."""
    examples = speed.PLIST_TOOL.parent / "examples"
    yield (examples / "settings.plist").read_bytes()
    yield (examples / "archive.plist").read_bytes()
    for _ in range(20):
        yield from mutations.from_others(chance, folder)
        yield archive(chance)


def large_files():
    """Yields files of up to some 200 kB: shapes that `speed.py` measures, and two ASCII files."""
    for shape in (speed.integers, speed.distinct_texts, speed.repeated_texts, speed.settings, speed.blobs,
                  speed.settings_by_plistlib):
        yield shape(200_000)
    yield speed.levels(20_000)
    yield b"(" * 20_000 + b")" * 20_000
    yield b"{ list = (" + b"(one, two, 3, { key = \"a text\"; }),\n" * 5000 + b"); }"


# ---- runs

class Case:
    """A file, the limit for its runs, and the paths for its commands."""

    def __init__(self, folder, data, room, in_place=False):
        self.data, self.room, self.in_place = data, room, in_place
        self.source, self.target = folder / "in", folder / "out"
        self.told = {command: (folder / f"{command}.shown", folder / f"{command}.error") for command in COMMANDS}
        folder.mkdir(exist_ok=True)

    def words(self, command):
        output = self.source if self.in_place else self.target
        return [command, self.source, *{"keyed": ["root"], "convert": [output]}.get(command, [])]

    def begin(self):
        """Writes the files, and returns the runs."""
        self.source.write_bytes(self.data)
        self.target.write_bytes(OLDER)
        return [([speed.PROGRAM, *self.words(command)], self.room, SECONDS, *self.told[command])
                for command in COMMANDS]

    def what_was_told(self, command):
        return [path.read_bytes() for path in self.told[command]]

    def output(self):
        """Returns the contents of OUT of `convert` now and before."""
        path = self.source if self.in_place else self.target
        return path.read_bytes(), self.data if self.in_place else OLDER


class Cases:
    """Runs the commands on files, and counts how they end."""

    def __init__(self, folder):
        self.starter, self.counts, self.bad = bounded.Starter(folder), collections.Counter(), 0
        self.folder, self.seconds = folder, 0.0

    def answers(self, data, room):
        """Returns how each command ends on these bytes, and what it prints and writes."""
        case = Case(self.folder / "looked", data, room)
        ended = self.starter.run_all(case.begin())
        return [(one.status, case.what_was_told(command)) for one, command in zip(ended, COMMANDS)], case.output()

    def least_room(self, pool, low):
        """Returns the smallest limit, in KiB, under which the results are those with enough memory."""
        for data in pool:
            ample = self.answers(data, AMPLE)
            if self.answers(data, low) == ample:
                continue
            high = MOST_ROOM
            while high - low > 4:
                middle = (low + high) // 2
                low, high = (low, middle) if self.answers(data, middle) == ample else (middle, high)
            low = high
        return low

    def batch(self, cases):
        """Runs all three commands on each of these cases."""
        runs = [run for case in cases for run in case.begin()]
        ended = iter(self.starter.run_all(runs))
        for case in cases:
            for command in COMMANDS:
                self.judge(case, command, next(ended))

    def judge(self, case, command, ended):
        shown, error = case.what_was_told(command)
        is_short = error.startswith(SHORT_OF_MEMORY)
        what = f"signal {ended.signal}" if ended.signal else f"status {ended.status}"
        self.counts[command, what + (", OutOfMemory" if is_short else "")] += 1
        self.seconds += ended.seconds
        faults = list(fault_of_run(ended, error))
        if command == "convert":
            faults += fault_of_output(ended, *case.output())
        elif is_short and not self.is_front(case, command, shown):
            faults.append("the output isn't a prefix of that with enough memory")
        for why in faults:
            self.bad += 1
            front, size = case.data[:2000].hex(), len(case.data)
            print(f"{command} under {case.room} KiB: {why}: {ended}, of {size} bytes, {front}", flush=True)

    def is_front(self, case, command, shown):
        """Returns whether the output is a prefix of that with enough memory, or true if even that run fails."""
        path, _ = case.told[command]
        whole, error = path.with_suffix(".whole"), path.with_suffix(".fault")
        ended = self.starter.run([speed.PROGRAM, *case.words(command)], AMPLE, SECONDS, whole, error)
        if ended.signal or error.read_bytes().startswith(SHORT_OF_MEMORY):
            self.counts[command, "not compared"] += 1
            return True
        return whole.read_bytes().startswith(shown)


def fault_of_run(ended, error):
    """Returns what is wrong with the end of a run and with its message."""
    if ended.signal or ended.status not in (0, 1, 2):
        yield "it ended by a signal, or with another status"
    elif ended.status == 2:
        yield "status 2, although the arguments are right"
    elif ended.status == 0 and error or ended.status == 1 and not TOLD.fullmatch(error):
        yield f"standard error has {error!r}"


def fault_of_output(ended, after, before):
    """Returns what is wrong with the file that `convert` had to write, or to leave unchanged."""
    if ended.status == 0 and not ended.signal:
        if not is_whole(after):
            yield f"OUT has {len(after)} bytes, and isn't a complete file"
    elif after != before:
        yield f"OUT was changed, and has {len(after)} bytes"


def is_whole(data):
    """Returns whether these bytes are a complete binary property list."""
    try:
        container = second.Container(data)
    except second.Fault:
        return False
    table, width = int.from_bytes(data[-8:], "big"), data[-26]
    return table + len(container.places) * width == container.end


def bounds(cases, small, large, room):
    """Returns the limits, in KiB, under which the commands succeed on these files."""
    least = room or cases.least_room(small, 1)
    most = room or cases.least_room(large, least)
    print(f"files of at most {max(map(len, small)):,} bytes work under {least} KiB, "
          f"of at most {max(map(len, large)):,} under {most} KiB", flush=True)
    return least, most


def some_case(chance, folder, small, large, least, most):
    in_place = chance.random() < 0.1
    if chance.random() < LARGE:
        enough = most if chance.random() < 0.5 else chance.randint(least, most)
        return Case(folder, mutations.mutated(chance, chance.choice(large)), enough, in_place)
    return Case(folder, mutations.some_file(chance, small), least, in_place)


def run_cases(words):
    """Runs this many cases of a seed under these limits."""
    count, seed, room = words
    chance, large = random.Random(seed), list(large_files())
    with tempfile.TemporaryDirectory() as name:
        folder = pathlib.Path(name)
        cases = Cases(folder)
        for start in range(0, count, BATCH):
            if start % (20 * BATCH) == 0:
                small = list(small_files(chance, folder))
            names = range(min(BATCH, count - start))
            cases.batch([some_case(chance, folder / str(i), small, large, *room) for i in names])
        cases.starter.close()
    return cases.counts, cases.bad, cases.seconds


def main():
    words = sys.argv[1:] + ["10000", "1", "1", "0"][len(sys.argv) - 1:]
    count, seed, workers, room = (int(word) for word in words)
    started = time.monotonic()
    with tempfile.TemporaryDirectory() as name:
        folder = pathlib.Path(name)
        cases = Cases(folder)
        room = bounds(cases, list(small_files(random.Random(seed), folder)), list(large_files()), room)
        cases.starter.close()
    with multiprocessing.Pool(workers) as pool:
        shares = [(count // workers + (i < count % workers), seed * 1000 + i, room) for i in range(workers)]
        counts, bad, seconds = zip(*pool.map(run_cases, shares, chunksize=1))
    for (command, what), times in sorted(sum(counts, collections.Counter()).items()):
        print(f"{command}: {times:,} {what}")
    print(f"{count:,} files: {sum(bad)} runs did otherwise; {sum(seconds):.0f} seconds of the program, "
          f"{time.monotonic() - started:.0f} in all")
    return 1 if sum(bad) else 0


if __name__ == "__main__":
    sys.exit(main())
