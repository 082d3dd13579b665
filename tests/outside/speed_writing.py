#!/usr/bin/env python3
"""Compares the speed of `plist_tool convert` with other programs, which read a value and write it.

The files and the programs are those of speed.py, with as many runs. For each program the least
processor time (user and system) and the greatest peak memory count. There are more shapes: many empty
arrays, a dictionary of many keys, arrays of equal short and long texts, and ASCII project files, which neither
version 1.3.1 of the crate nor `plistlib` reads. `plistlib` loads and dumps the value. `plistutil` is left out,
because it copies a file that is binary already.

A second table compares reading from memory and writing to memory, without a value: `copy_events` to a
`BinaryWriter`, and the same writer with the events of an iterator, in the program of
`tests/outside/sharing`, which is proved and built by the kit's `rt` in a copy of the crates; and the
crate's reader and writer.

Usage: speed_writing.py [--program PROGRAM] [MEGABYTES ..]      1 and 10 by default
"""
import math
import pathlib
import random
import subprocess
import sys
import tempfile

import speed
import speed_sharing

DUMP = "import plistlib, sys; plistlib.dump(plistlib.load(open(sys.argv[1], 'rb')), open(sys.argv[2], 'wb'), fmt=plistlib.FMT_BINARY, sort_keys=False)"


def empty_arrays(file):
    return file.array([file.array([]) for _ in range(66_000)])


def many_keys(file):
    one = file.add(b"\x09")
    return file.dictionary([(file.text(f"key number {n}"), one) for n in range(10**6)])


def equal_texts(file):
    text = file.text("one text of some length, a million times")
    return file.array([text] * 10**6)


def equal_long_texts(file):
    return file.array([file.text("a" * (1 << 16))] * 10**5)


def project(size):
    """Returns an ASCII project file: objects by identifier, with references, lists and settings."""
    rng, names, lines = random.Random(5), [], ["// !$*UTF8*$!", "{", "archiveVersion = 1;", "objects = {"]
    length = 0
    while length < size - 200:
        name = "%024X" % rng.getrandbits(96)
        names.append(name)
        number, other = len(names), rng.choice(names)
        lines.append([
            f"\t{name} /* file{number}.m */ = {{isa = PBXFileReference; fileEncoding = 4; path = file{number}.m; sourceTree = \"<group>\"; }};",
            f"\t{name} /* file{number}.m in Sources */ = {{isa = PBXBuildFile; fileRef = {other} /* file */; }};",
            f"\t{name} = {{\n\t\tisa = PBXGroup;\n\t\tchildren = (\n" + "".join(
                f"\t\t\t{rng.choice(names)} /* child */,\n" for _ in range(6)) + f"\t\t);\n\t\tname = \"group {number}\";\n\t}};",
            f"\t{name} = {{\n\t\tisa = XCBuildConfiguration;\n\t\tbuildSettings = {{\n\t\t\tCLANG_ENABLE_OBJC_ARC = YES;\n"
            f"\t\t\tPRODUCT_NAME = \"$(TARGET_NAME) {number % 50}\";\n\t\t}};\n\t\tname = Debug;\n\t}};",
        ][rng.randrange(4)])
        length += len(lines[-1])
    return "\n".join([*lines, "};", f"rootObject = {names[0]};", "}", ""]).encode()


WIDE = {"66,000 empty arrays": empty_arrays, "10^6 keys": many_keys, "10^6 equal texts": equal_texts,
        "10^5 times 64 KiB": equal_long_texts}


def programs(folder):
    yield "plist_tool", [speed.PROGRAM, "convert"]
    crate = speed.peer(folder)
    if crate:
        yield "the crate", [crate, "convert"]
    yield "plistlib", [sys.executable, "-c", DUMP]


def row(name, source, known, first="plist_tool", written=True):
    """Prints a line of the table, and returns the least processor seconds of the first program."""
    target = [source.with_name("written.plist")] if written else []
    found = speed.measured(source, dict(known), *target)
    ours, cells = found[first], []
    for program, value in found.items():
        if value is None:
            cells.append("fails")
        elif program == first or ours is None:
            cells.append(f"{value[0]:.4f} s, {value[1] / 1e6:.1f} MB")
        else:
            cells.append(f"{value[0]:.4f} s, {value[1] / 1e6:.1f} MB ({ours[0] / max(value[0], 0.001):.2f}, {ours[1] / value[1]:.2f})")
    print(f"| {name} | {source.stat().st_size:,} | " + " | ".join(cells) + " |", flush=True)
    return ours and ours[0]


def print_events(sizes, path, known):
    """Prints the table for events that are passed to a writer."""
    print("\nEvents copied from a reader to a writer, from memory to memory:\n")
    print("| shape | bytes | " + " | ".join(program for program, _ in known) + " |")
    print("|" + "---|" * (2 + len(known)))
    for shape in speed.SHAPES:
        for size in sizes:
            speed.make(path, shape, size)
            row(f"{shape}, {size} MB", path, known, first="copy_events", written=False)


def main(words):
    built = None
    if words[:1] == ["--program"]:
        built, words = pathlib.Path(words[1]).resolve(), words[2:]
    sizes = [int(word) for word in words] or [1, 10]
    with tempfile.TemporaryDirectory() as name:
        folder = pathlib.Path(name)
        known = list(programs(folder))
        print("| shape | bytes | " + " | ".join(program for program, _ in known) + " |")
        print("|" + "---|" * (2 + len(known)))
        path, grown = folder / "file.plist", {}
        for shape in speed.SHAPES:
            for size in sizes:
                speed.make(path, shape, size)
                seconds = row(f"{shape}, {size} MB", path, known)
                if seconds:
                    grown.setdefault(shape, []).append((path.stat().st_size, seconds))
        for shape in WIDE:
            # in a process of its own, since the memory of this one would count for the programs
            subprocess.run([sys.executable, __file__, "--make", path, shape], check=True)
            row(shape, path, known)
        for size in sizes:
            subprocess.run([sys.executable, __file__, "--make", path, "ASCII project", str(size)], check=True)
            seconds = row(f"ASCII project, {size} MB", path, known)
            if seconds:
                grown.setdefault("ASCII project", []).append((path.stat().st_size, seconds))
        built = built or speed_sharing.program(folder)
        crate = dict(known).get("the crate")
        if built:
            writers = [("copy_events", [built, "plain"]), ("iterator", [built, "owned"])]
            print_events(sizes, path, writers + ([("the crate", [crate[0], "events"])] if crate else []))
    print("\nIn brackets: the processor time and the peak memory of the first program, divided by those of the other. Growth of the first program's time:")
    for shape, points in grown.items():
        (small, first), (large, last) = points[0], points[-1]
        if small < large:
            print(f"- {shape}: exponent {math.log(last / first) / math.log(large / small):.2f} from {small:,} to {large:,} bytes")


def made(path, shape, *size):
    file = speed.File()
    content = project(int(size[0]) * 1_000_000) if size else file.bytes(WIDE[shape](file))
    pathlib.Path(path).write_bytes(content)


if __name__ == "__main__":
    if sys.argv[1:2] == ["--make"]:
        made(*sys.argv[2:])
    else:
        main(sys.argv[1:])
