#!/usr/bin/env python3
"""Measures how fast the Rust crate `sizhetom` reads and writes files in memory, beside the crate `plist`
and libplist.

The files are those of `speed.py` and the ASCII project of `speed_writing.py`. The programs
(`tests/outside/bindings/speed`) run in turn. Each one repeats a call for 0.4 seconds, and its fastest
call counts; of these times the least one of all rounds is printed, in milliseconds. The calls are:

- read: all events are visited. `sizhetom` reads into new memory, or (again) into the memory of the
  call before. The crate `plist` makes events that own their strings.
- read and value: a value is made, and dropped.
- write: a value is written as a binary file in memory.

The crate is `plist` as Debian packages it (librust-plist-dev). libplist is used if `pkg-config` finds it
(libplist-dev). A program that isn't installed is left out.

Usage: speed_bindings.py [--rounds N] [SHAPE ..]      5 rounds, and all shapes at 10 MB

SIZE is the variable for the megabytes of a file. Prints a table in Markdown. Needs the archive
libplist_c.a and cargo.
"""
import argparse
import os
import pathlib
import shlex
import shutil
import subprocess
import tempfile
import time

import speed
import speed_writing

HERE = pathlib.Path(__file__).resolve().parent
PROGRAMS = HERE / "bindings/speed"
DEBIAN = ["--config", 'source.crates-io.replace-with="debian"',
          "--config", 'source.debian.directory="/usr/share/cargo/registry"']
SHAPES = {**speed.SHAPES, "ASCII project": speed_writing.project}
SIZE = int(os.environ.get("SIZE", 10)) * 1_000_000
# a program whose calls take this many seconds isn't run again for the file
SLOW = 10
# the columns: a call, and whose calls of it are compared
CALLS = {"read": ("sizhetom", "sizhetom, again", "plist"),
         "read and value": ("sizhetom", "plist", "libplist"),
         "write": ("sizhetom", "plist", "libplist")}


def cargo(folder, name, *more):
    """Builds a program, and returns its path, or None if that fails."""
    source = PROGRAMS / name
    words = ["cargo", "build", "--release", "--offline", "--quiet", *more]
    variables = {**os.environ, "CARGO_TARGET_DIR": str(folder / name)}
    built = subprocess.run(words, cwd=source, env=variables, capture_output=bool(more))
    return folder / name / "release" / name if built.returncode == 0 else None


def libplist(folder):
    """Builds the program over libplist, and returns its path, or None if it isn't installed."""
    if shutil.which("pkg-config") is None:
        return None
    flags = subprocess.run(["pkg-config", "--cflags", "--libs", "libplist-2.0"], capture_output=True, text=True)
    if flags.returncode != 0:
        return None
    program = folder / "libplist"
    subprocess.run(["cc", "-O2", "-o", program, PROGRAMS / "libplist.c", *shlex.split(flags.stdout)], check=True)
    return program


def programs(folder):
    found = {"sizhetom": cargo(folder, "ours"), "plist": cargo(folder, "crate", *DEBIAN), "libplist": libplist(folder)}
    if found["sizhetom"] is None:
        raise SystemExit("the program over sizhetom can't be built")
    return {name: program for name, program in found.items() if program}


def times_of(program, path):
    """Returns the milliseconds of each call, or None for a call that fails."""
    lines = subprocess.run([program, path], capture_output=True, text=True).stdout.splitlines()
    words = [line.rpartition(" ") for line in lines]
    return {call: None if taken == "fails" else int(taken) / 1e6 for call, _, taken in words}


def measured(known, path, rounds):
    """Returns the least time of each call of each program. A slow program runs once."""
    best, slow = {}, set()
    for _ in range(rounds):
        for name, program in known.items():
            if name in slow:
                continue
            start = time.monotonic()
            found = times_of(program, path)
            if time.monotonic() - start > SLOW:
                slow.add(name)
            for call, taken in found.items():
                if call == "read again":
                    key = "read", f"{name}, again"
                else:
                    key = call, name
                best[key] = None if taken is None else min(taken, best.get(key, taken))
    return best


def cell(best, call, name):
    taken, ours = best.get((call, name)), best.get((call, "sizhetom"))
    if taken is None:
        return "fails" if (call, name) in best else "-"
    ratio = f" ({ours / taken:.2f})" if ours and name in ("plist", "libplist") else ""
    return f"{taken:.{1 if taken < 100 else 0}f}{ratio}"


def main():
    reader = argparse.ArgumentParser()
    reader.add_argument("--rounds", type=int, default=5)
    reader.add_argument("shapes", nargs="*", default=list(SHAPES))
    given = reader.parse_args()
    columns = [(call, name) for call, names in CALLS.items() for name in names]
    with tempfile.TemporaryDirectory() as folder:
        folder = pathlib.Path(folder)
        known, path = programs(folder), folder / "file"
        print("| shape | " + " | ".join(f"{call}: {name}" for call, name in columns) + " |")
        print("|---|" + "---|" * len(columns))
        for shape in given.shapes:
            path.write_bytes(SHAPES[shape](SIZE))
            best = measured(known, path, given.rounds)
            print(f"| {shape} | " + " | ".join(cell(best, *column) for column in columns) + " |", flush=True)


if __name__ == "__main__":
    main()
