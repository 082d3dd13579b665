#!/usr/bin/env python3
"""Measures the peak memory of `Value::from_reader_within` on small files whose values are much larger.

An array refers to one string many times: 99,998 times to one of 1 MiB, 100 times to one of 100,000
bytes; others do so with a UTF-16 string and with data. The limits are 64 collections, 100,000 items
and a number of bytes. If the strings and data of the value have more bytes than this number, the call
must return `OutOfMemory`, and otherwise the value. Its peak memory may exceed this number by at most
the sum of 2 MiB, the size of the longest string or data of the file, and the peak memory for an empty
array. While a UTF-16 string is read, both its units and its UTF-8 bytes are in memory: of "é" four
bytes for each unit of two, and of "€" five.

Usage: limits.py [PROGRAM]

If PROGRAM isn't named, `tests/outside/limits` is proved and built in a copy of the crates. Needs a C
compiler. The status is 1 if a call does otherwise.
"""
import pathlib
import sys
import tempfile

import bounded
import peak_memory
import speed

BEYOND = 2 << 20
CRATES = ("plist_base", "plist_decode", "plist_binread", "plist_buffer",
          "plist_binwrite", "plist_ascii", "plist_pairs", "plist_reader", "plist")
REACHED = b"OutOfMemory\n"
VALUE = b"a value\n"


def with_length(kind, count):
    return bytes([kind << 4 | 15, 0x12]) + count.to_bytes(4, "big")


def data(count):
    return with_length(4, count) + bytes(count)


def shared(content, times):
    """Returns a file with an array of `times` references of one byte to one object."""
    return peak_memory.container([with_length(10, times) + b"\1" * times, content], reference=1)


def runs():
    """Yields a name, a file, its longest string or data, the limit of bytes, and the expected output."""
    text, wide = peak_memory.text, peak_memory.wide_text
    most, mebibyte = 16 << 20, 1 << 20
    yield "99,998 references to a string of 1 MiB", shared(text(mebibyte), 99_998), mebibyte, most, REACHED
    yield "99,998 references to data of 1 MiB", shared(data(mebibyte), 99_998), mebibyte, most, REACHED
    yield ("99,998 references to a wide string of 1 MiB", shared(wide(mebibyte // 2), 99_998),
           2 * mebibyte, most, REACHED)
    yield ("99,998 references to a string of 1,015 bytes, 101,073 in all", shared(text(1_015), 99_998), 1_015,
           most, REACHED)
    yield ("2,000 references to a string of 100,000 bytes", shared(text(100_000), 2_000), 100_000, 10_000_000,
           REACHED)
    yield ("100 references to a string of 100,000 bytes", shared(text(100_000), 100), 100_000, 10_000_000,
           VALUE)
    yield "a string of 64 MiB", shared(text(64 << 20), 1), 64 << 20, mebibyte, REACHED
    yield "data of 64 MiB", shared(data(64 << 20), 1), 64 << 20, mebibyte, REACHED
    yield "a wide string of 64 MiB", shared(wide(32 << 20), 1), 128 << 20, mebibyte, REACHED
    yield ("99,998 references to a wide string of 1 MiB with three bytes a unit in UTF-8",
           shared(wide(mebibyte // 2, "€"), 99_998), 5 * mebibyte // 2, most, REACHED)
    yield ("a wide string of 64 MiB with three bytes a unit in UTF-8", shared(wide(32 << 20, "€"), 1), 160 << 20,
           mebibyte, REACHED)


def main():
    bad = 0
    with tempfile.TemporaryDirectory() as name:
        folder = pathlib.Path(name)
        program = pathlib.Path(sys.argv[1]).resolve() if sys.argv[1:] else speed.built(
            folder, "limits", CRATES, "plist", ["no_such_file"])
        starter = bounded.Starter(folder)
        source, out = folder / "file.plist", folder / "out"

        def run(file, most):
            source.write_bytes(file)
            ended = starter.run([program, source, 64, 100_000, most], seconds=60, out=out)
            return ended, out.read_bytes()

        start = run(peak_memory.container([b"\xa0"]), 0)[0].peak
        print("| file | bytes allowed | longest | printed | peak beyond an empty array | beyond both | seconds |")
        print("|---|---|---|---|---|---|---|")
        for shape, file, longest, most, wanted in runs():
            ended, printed = run(file, most)
            peak = ended.peak - start
            beyond = peak - most - longest
            fine = printed == wanted and ended.status == 0 and beyond <= BEYOND
            bad += not fine
            print(f"| {shape} | {most:,} | {longest:,} | {printed.decode().strip()} | {peak:,} | "
                  f"{max(beyond, 0):,} | {ended.seconds:.2f} |{'' if fine else ' UNEXPECTED'}")
        starter.close()
    return 1 if bad else 0


if __name__ == "__main__":
    sys.exit(main())
