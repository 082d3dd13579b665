#!/usr/bin/env python3
"""Measures calls on large dictionaries, and the base64 text of data, for a size and for twice the size.

Builds tests/outside/bulk with the kit in a copy of the crates, and prints the processor time (user
and system) of the best of five runs. The preparation, such as making the dictionaries, is measured
apart and subtracted. For comparison, Python's `base64`, which is written in C, is timed on as many
bytes.

Usage: speed_calls.py [PROGRAM]     PROGRAM is the built program; if it isn't named, it is built
"""
import base64
import os
import pathlib
import shutil
import subprocess
import sys
import tempfile
import time

HERE = pathlib.Path(__file__).resolve().parent
CRATES = ("plist_base", "plist_decode", "plist_binread", "plist_buffer", "plist_binwrite",
          "plist_ascii", "plist_reader", "plist_pairs", "plist")
RUNS = 5
KEYS = 100_000
BYTES = 10_000_000


def program(folder):
    """Builds the program over the crates in a repository of its own."""
    root = folder / "bulk"
    for crate in CRATES:
        shutil.copytree(HERE.parents[1] / "crates" / crate, root / "crates" / crate)
    (root / "crates/bulk/src").mkdir(parents=True)
    shutil.copy(HERE / "bulk/main.rt.in", root / "crates/bulk/src/main.rt")
    lines = (HERE.parents[1] / "crates.txt").read_text().splitlines()
    kept = [line for line in lines if line.split(":")[0] in CRATES]
    (root / "crates.txt").write_text("\n".join([*kept, "bulk: plist_base plist", ""]))
    subprocess.run(["rt", "run", "--", "1000", "equal"], cwd=root / "crates/bulk", check=True)
    return root / "crates/bulk/out/bulk"


def seconds(words):
    """Returns the processor time of the best run."""
    times = []
    for _ in range(RUNS):
        child = subprocess.Popen([str(word) for word in words], stdout=subprocess.DEVNULL)
        _, status, usage = os.wait4(child.pid, 0)
        if status != 0:
            sys.exit(f"{words} failed")
        times.append(usage.ru_utime + usage.ru_stime)
    return min(times)


def row(built, call, beneath, count):
    """Returns a row: a call's time for a count and for twice the count, without its preparation."""
    times = []
    for n in (count, 2 * count):
        taken = seconds([built, n, call])
        times.append(max(taken - (seconds([built, n, beneath]) if beneath else 0), 0.001))
    return f"| `{call}` | {count:,} | {times[0]:.3f} s | {times[1]:.3f} s | {times[1] / times[0]:.1f} |"


def by_python(call):
    """Returns the best time of Python's own call."""
    content = bytes(n % 251 for n in range(BYTES))
    text = base64.b64encode(content)
    times = []
    for _ in range(RUNS):
        start = time.process_time()
        base64.b64encode(content) if call == "encode" else base64.b64decode(text, validate=True)
        times.append(time.process_time() - start)
    return min(times)


def main(folder):
    built = pathlib.Path(sys.argv[1]) if len(sys.argv) > 1 else program(folder)
    print("| call | count | time | of twice the count | ratio |\n|---|---|---|---|---|")
    for call, beneath in (("insert", None), ("entry", "insert"), ("equal", "insert"), ("sort", "insert")):
        print(row(built, call, beneath, KEYS))
    for call, beneath in (("encode", "fill"), ("decode", "encode"), ("spaces", None), ("digits", None)):
        print(row(built, call, beneath, BYTES))
    for call in ("encode", "decode"):
        print(f"Python's base64, {call} {BYTES:,} bytes: {by_python(call):.3f} s")


if __name__ == "__main__":
    with tempfile.TemporaryDirectory() as folder:
        main(pathlib.Path(folder))
