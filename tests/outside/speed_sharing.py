#!/usr/bin/env python3
"""Compares the speed of `SharingWriter` with that of `BinaryWriter` on the same events.

The program in `tests/outside/sharing` reads a file from memory and passes its events to a writer over
memory. It is proved and built by the kit's `rt` in a copy of the crates. It runs in turn without a
writer and with each of the two; the run of each kind with the least processor time (user and system)
counts. The time of reading alone is subtracted, so the times in the table are those of the writers
alone; the memory is that of the whole run.
The input files share equal collections, so reading takes little time. The sizes of the rows are those
of the files that `BinaryWriter` writes.

Usage: speed_sharing.py [--program PROGRAM] [MEGABYTES ..]      1, 10 and 50 by default
"""
import math
import pathlib
import random
import subprocess
import sys
import tempfile

import speed

HERE = pathlib.Path(__file__).resolve().parent
CRATES = ("plist_base", "plist_decode", "plist_binread", "plist_buffer",
          "plist_binwrite", "plist_share", "plist_ascii", "plist_reader")
USES = "plist_base plist_binread plist_binwrite plist_share plist_reader"
RUNS = 5


def program(folder):
    """Builds the program over the crates in a repository of its own."""
    return speed.built(folder, "sharing", CRATES, USES, ["none", "no_such_file"])


# ---- the files

def repeated_subtrees(size):
    """Returns many records of a thousand kinds, each with a list and a dictionary."""
    file, rng = speed.File(), random.Random(1)
    keys = [file.text(key) for key in ("name", "price", "tags", "maker", "sizes")]
    records = []
    for number in range(1000):
        tags = file.array([file.text(f"tag {rng.randrange(50)}") for _ in range(3)])
        maker = file.dictionary([(keys[0], file.text(f"maker {number % 40}")), (keys[1], file.integer(number % 7))])
        sizes = file.array([file.integer(rng.randrange(100)) for _ in range(4)])
        values = [file.text(f"article {number}"), file.integer(rng.randrange(10_000)), tags, maker, sizes]
        records.append(file.dictionary(list(zip(keys, values))))
    # a record takes some 96 bytes if nothing is shared
    return file.bytes(file.array([records[n * 7919 % 1000] for n in range(size // 96)]))


SHAPES = {"settings": speed.settings, "repeated subtrees": repeated_subtrees,
          "repeated strings": speed.repeated_texts, "distinct strings": speed.distinct_texts}
LEVELS = {"10^5 levels": 10**5, "10^6 levels": 10**6}


def make(path, shape, *size):
    """Makes a file in a process of its own, since this one's memory would count for the programs."""
    words = [sys.executable, __file__, "--make", path, shape, *size]
    subprocess.run([str(word) for word in words], check=True)


def made(path, shape, *size):
    content = SHAPES[shape](int(size[0]) * 1_000_000) if size else speed.levels(LEVELS[shape])
    pathlib.Path(path).write_bytes(content)


# ---- the table

def length_of(built, writer, path):
    """Returns how many bytes a writer writes."""
    return int(subprocess.run([built, writer, path], capture_output=True, check=True).stdout)


def row(name, built, path):
    """Prints a line, and returns the size of the plain file and the seconds of `SharingWriter`."""
    runs = {writer: [] for writer in ("none", "plain", "sharing")}
    for _ in range(RUNS):
        for writer, taken in runs.items():
            taken.append(speed.measure([built, writer, path]))
    found = {writer: speed.best(taken) for writer, taken in runs.items()}
    read, memory = found["none"][0], {writer: found[writer][1] / 1e6 for writer in found}
    plain, sharing = (max(found[writer][0] - read, 0.001) for writer in ("plain", "sharing"))
    large, small = (length_of(built, writer, path) for writer in ("plain", "sharing"))
    print(f"| {name} | {large:,} | {small:,} | {plain:.3f} s, {memory['plain']:.0f} MB "
          f"| {sharing:.3f} s, {memory['sharing']:.0f} MB | {sharing / plain:.2f} |", flush=True)
    return large, sharing


def print_growth(grown):
    print("\nGrowth of the time of `SharingWriter`, from each size to the next:\n")
    for shape, points in grown.items():
        for (small, first), (large, last) in zip(points, points[1:]):
            print(f"- {shape}: exponent {math.log(last / first) / math.log(large / small):.2f} "
                  f"from {small:,} to {large:,}")


def main(words):
    built = None
    if words[:1] == ["--program"]:
        built, words = pathlib.Path(words[1]).resolve(), words[2:]
    sizes = [int(word) for word in words] or [1, 10, 50]
    with tempfile.TemporaryDirectory() as name:
        folder = pathlib.Path(name)
        built, path, grown = built or program(folder), folder / "file.plist", {}
        speed.heading(["shape", "bytes of `BinaryWriter`", "bytes of `SharingWriter`", "`BinaryWriter`",
                       "`SharingWriter`", "ratio of the times"])
        for shape in SHAPES:
            for size in sizes:
                make(path, shape, size)
                grown.setdefault(f"{shape}, bytes", []).append(row(f"{shape}, {size} MB", built, path))
        for shape, count in LEVELS.items():
            make(path, shape)
            grown.setdefault("levels", []).append((count, row(shape, built, path)[1]))
        print_growth(grown)


if __name__ == "__main__":
    if sys.argv[1:2] == ["--make"]:
        made(*sys.argv[2:])
    else:
        main(sys.argv[1:])
