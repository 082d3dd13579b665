#!/usr/bin/env python3
"""Makes two hostile property lists, and prints as a table how programs end that read them.

The first file has 100,000 nested arrays. The second one has 202 bytes: 41 arrays, each of which but the
last lists the next one twice, so that 2^42 - 2 events are read from it. The programs are one over the Rust
crate `plist` (tests/outside/peer, as in speed.py; if the variable PEER is set, it names such a program),
Python's plistlib, plistutil (libplist), and one that calls `Value::from_reader_within`
(tests/outside/limits), within 64 collections, 100,000 items and 16 MiB. A program that isn't installed has
no row. Each run may use 2 GB of memory, 20 seconds of processor time and 8 MiB of call stack.

Usage: hostile_table.py [PROGRAM]

If PROGRAM isn't named, `tests/outside/limits` is proved and built in a copy of the crates. Needs a C
compiler. The status is 1 if this library doesn't return `LimitReached(Depth)` for the first file and
`LimitReached(Items)` for the second one.
"""
import pathlib
import resource
import shutil
import signal
import subprocess
import sys
import tempfile

import bounded
import deep
import limits
import speed

ROOM, SECONDS, STACK = 2 << 20, 20, 8 << 20
DEPTH, ITEMS, BYTES = 64, 100_000, 16 << 20
LEVELS, CHAIN = 100_000, 41
PLISTLIB = "import plistlib, sys; plistlib.load(open(sys.argv[1], 'rb'))"


def doubling(arrays):
    """Returns a file of arrays, each of which but the last, which is empty, lists the next one twice."""
    objects = b"".join(bytes([0xa2, i, i]) for i in range(1, arrays)) + b"\xa0"
    table = bytes(8 + 3 * i for i in range(arrays))
    trailer = bytes(6) + b"\1\1" + arrays.to_bytes(8, "big") + bytes(8) + (8 + len(objects)).to_bytes(8, "big")
    return b"bplist00" + objects + table + trailer


def files(folder):
    """Returns the two files by the heads of their columns."""
    nested, chain = folder / "nested.plist", folder / "chain.plist"
    nested.write_bytes(deep.binary(LEVELS))
    chain.write_bytes(doubling(CHAIN))
    sizes = [path.stat().st_size for path in (nested, chain)]
    return {f"{LEVELS:,} nested arrays, {sizes[0]:,} bytes": nested,
            f"{CHAIN} arrays with 2^{CHAIN + 1} - 2 events, {sizes[1]:,} bytes": chain}


def version_of(*words):
    """Returns the version that a command prints as the last word of its first line."""
    told = subprocess.run(words, capture_output=True, text=True)
    lines = (told.stdout or told.stderr).splitlines()
    return lines[0].split()[-1] if lines else "?"


def crate_version(program):
    """Returns the version of the crate with which cargo built a program, or a blank text."""
    lock = program.parents[2] / "Cargo.lock"
    packages = lock.read_text().split("[[package]]") if lock.exists() else []
    found = [it.split('version = "')[1].split('"')[0] for it in packages if 'name = "plist"' in it]
    return f" {found[0]}" if found else ""


def programs(folder, ours):
    """Yields the name of each program, and its words before and after the name of the file."""
    crate = speed.peer(folder)
    if crate:
        yield f"the crate `plist`{crate_version(crate)}", [crate, "convert"], [folder / "converted"]
    yield f"plistlib, Python {sys.version.split()[0]}", [sys.executable, "-c", PLISTLIB], []
    found = shutil.which("plistutil")
    if found:
        yield f"plistutil {version_of(found, '--version')}", [found, "-f", "xml", "-o", "/dev/null", "-i"], []
    yield "this library under limits", [ours], [DEPTH, ITEMS, BYTES]


def reason(ended, printed, errors):
    """Returns how a program ended, in a few words."""
    if ended.signal in (signal.SIGXCPU, signal.SIGKILL):
        return f"didn't end within {SECONDS} s"
    if ended.signal:
        return signal.Signals(ended.signal).name + (": stack overflow" if "overflowed its stack" in errors else
                                                    ": out of memory" if "memory allocation" in errors else "")
    if ended.status:
        lines = errors.strip().splitlines()
        return f"status {ended.status}" + (f": `{lines[-1].split(':')[0]}`" if lines else "")
    return f"`{printed.strip()}`" if printed.strip() else "it is read"


def main():
    resource.setrlimit(resource.RLIMIT_STACK, (STACK, STACK))
    wrong = False
    with tempfile.TemporaryDirectory() as name:
        folder = pathlib.Path(name)
        ours = pathlib.Path(sys.argv[1]).resolve() if sys.argv[1:] else speed.built(
            folder, "limits", limits.CRATES, "plist", ["no_such_file"])
        starter = bounded.Starter(folder)
        columns, out, err = files(folder), folder / "out", folder / "err"
        speed.heading(["read by", *columns])
        for reader, before, after in programs(folder, ours):
            cells = []
            for path in columns.values():
                ended = starter.run([*before, path, *after], ROOM, SECONDS, out, err)
                told = reason(ended, out.read_text(errors="replace"), err.read_text(errors="replace"))
                cells.append((told, f"{told}, {ended.seconds:.2f} s, {ended.peak / 1e6:.0f} MB"))
            print(f"| {reader} | " + " | ".join(cell for _, cell in cells) + " |", flush=True)
        starter.close()
        wrong = [told for told, _ in cells] != ["`LimitReached(Depth)`", "`LimitReached(Items)`"]
    return 1 if wrong else 0


if __name__ == "__main__":
    sys.exit(main())
