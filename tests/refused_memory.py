#!/usr/bin/env python3
"""Lets each allocation of `plist_tool` fail in turn.

The n-th call of malloc, realloc, aligned_alloc or posix_memalign fails. Then a command has to do what it
does with enough memory, or to print a prefix of its lines, report `OutOfMemory` and end with status 1;
`convert` leaves OUT unchanged, or writes all of it. With wrong arguments nothing is printed, the usage is
reported, and the status is 2. With enough memory, the program also reads a sparse file of more than 4 GiB,
property lists of 0 to 1,000,000 integers, levels and characters, and, in less than a second, 10^5 references
to one string of 64 KiB.

Usage: refused_memory.py      Needs a C compiler. Prints counts at the end, and has status 1 if a run does anything else.
"""
import collections
import itertools
import os
import pathlib
import plistlib
import resource
import struct
import subprocess
import sys
import tempfile

REPOSITORY = pathlib.Path(__file__).resolve().parents[1]
PROGRAM = REPOSITORY / "crates/plist_tool/out/plist_tool"
SETTINGS, ARCHIVE = REPOSITORY / "examples/settings.plist", REPOSITORY / "examples/archive.plist"
USAGE = b"Usage: plist_tool print FILE | convert IN OUT | keyed FILE KEY\n"
ASCII = b'{ name = "caf\\U00e9"; list = (1, two, { deep = "x y z, and a longer text"; }); }\n'
SIZES = (0, 1, 65_536, 65_537, 1_000_000)
# how a printed string has a character of three bytes
EURO = r"\xe2\x82\xac"
SHIM = r"""
#define _GNU_SOURCE
#include <dlfcn.h>
#include <errno.h>
#include <stdio.h>
#include <stdlib.h>
static long wanted = -1, count = 0;
static int refused(void) {
    if (wanted < 0) { char *text = getenv("REFUSE"); wanted = text ? atol(text) : 0; }
    return ++count == wanted;
}
#define NEXT(name) static __typeof__(&name) real; if (!real) real = dlsym(RTLD_NEXT, #name)
void *malloc(size_t size) {
    NEXT(malloc);
    if (refused()) { errno = ENOMEM; return 0; }
    return real(size);
}
void *realloc(void *old, size_t size) {
    NEXT(realloc);
    if (refused()) { errno = ENOMEM; return 0; }
    return real(old, size);
}
void *aligned_alloc(size_t align, size_t size) {
    NEXT(aligned_alloc);
    if (refused()) { errno = ENOMEM; return 0; }
    return real(align, size);
}
int posix_memalign(void **place, size_t align, size_t size) {
    NEXT(posix_memalign);
    return refused() ? ENOMEM : real(place, align, size);
}
__attribute__((destructor)) static void tell(void) {
    FILE *file = fopen(getenv("COUNT"), "w");
    if (file) { fprintf(file, "%ld", count); fclose(file); }
}
"""


class Driver:
    """Runs the program while one allocation fails."""

    def __init__(self, folder):
        self.folder, self.shim, self.count = folder, folder / "shim.so", folder / "count"
        source = folder / "shim.c"
        source.write_text(SHIM)
        subprocess.run(["cc", "-shared", "-fPIC", "-o", self.shim, source, "-ldl"], check=True)

    def run(self, refused, words):
        """Returns the result, and the number of allocations."""
        environment = {**os.environ, "LD_PRELOAD": str(self.shim), "REFUSE": str(refused), "COUNT": str(self.count)}
        done = subprocess.run([PROGRAM, *words], env=environment, capture_output=True, timeout=60)
        return (done.returncode, done.stdout, done.stderr), int(self.count.read_text())


def is_want_of_memory(found, ample):
    status, out, error = found
    return status == 1 and error == b"Error: OutOfMemory\n" and ample[1].startswith(out)


def is_usage(driver, words, output):
    """Returns whether these arguments are rejected, nothing is printed, and the file is unchanged."""
    output.write_bytes(b"an older file")
    found, _ = driver.run(0, words)
    if found == (2, b"", USAGE) and output.read_bytes() == b"an older file":
        return True
    print(f"{words}: {found!r}, {output.read_bytes()!r}")
    return False


def reads_far(driver, file):
    """Returns whether the objects of a sparse file are read beyond 4 GiB, and not modulo 4 GiB."""
    far = (1 << 32) + 50
    table = far + 4
    places = b"".join(place.to_bytes(8, "big") for place in (8, 50, far))
    numbers = b"".join(number.to_bytes(8, "big") for number in (3, 0, table))
    with open(file, "wb") as out:
        out.write(b"bplist00\xa2\1\2".ljust(50) + b"\x54near")
        out.seek(far)
        out.write(b"\x53far" + places + bytes(6) + b"\x08\1" + numbers)
    found, _ = driver.run(0, ["print", file])
    if found == (0, b'StartArray 2\nString "near"\nString "far"\nEndCollection\n', b""):
        return True
    print(f"a sparse file: {found!r}")
    return False


def lines_of(values):
    """Returns the printed lines of these scalars."""
    return "".join(f"Integer {it}\n" if isinstance(it, int) else
                   f"Data {it.hex()}".rstrip() + "\n" if isinstance(it, bytes) else
                   f'String "{it.replace("€", EURO)}"\n' for it in values).encode()


def file_of(objects):
    """Returns a binary file of these objects, with references of four bytes."""
    places = [*itertools.accumulate(map(len, objects), initial=8)]
    table = struct.pack(f">{len(objects)}I", *places[:-1])
    return b"bplist00" + b"".join(objects) + table + struct.pack(">6xBBQQQ", 4, 4, len(objects), 0, places[-1])


def sized(size):
    """Yields names, binary files of this size, the same property lists in ASCII, and their printed lines."""
    def file(value):
        return plistlib.dumps(value, fmt=plistlib.FMT_BINARY)

    end = b"EndCollection\n"
    numbers = range(size)
    array = struct.pack(f">BBI{size}I", 0xaf, 0x12, size, *range(1, size + 1))
    integers = [struct.pack(">BI", 0x12, number) for number in numbers]
    yield ("integers", file_of([array, *integers]), b"(" + b"".join(b"%d," % it for it in numbers) + b")",
           b"StartArray %d\n" % size + lines_of(numbers) + end)
    arrays = [struct.pack(">BI", 0xa1, level + 1) for level in numbers]
    yield ("levels", file_of([*arrays, b"\x10\5"]), b"(" * size + b"5" + b")" * size,
           b"StartArray 1\n" * size + lines_of([5]) + end * size)
    for name, text in (("characters", "a" * size), ("characters in UTF-16", "€" * size)):
        yield (name, file({text: [text]}), f"{{'{text}' = (\"{text}\");}}".encode(),
               b"StartDictionary 1\n" + lines_of([text]) + b"StartArray 1\n" + lines_of([text]) + end * 2)
    # an archive, since data has no form in ASCII
    data = b"\x5f" * size
    archive = {"$objects": ["$null", data], "$top": {"root": plistlib.UID(1)}}
    yield "bytes of data", file(archive), None, lines_of([data])


def is_read(driver, folder, size):
    """Returns whether property lists of this size are printed and converted."""
    bad = []

    def expect(name, words, wanted):
        found, _ = driver.run(0, words)
        if found != (0, wanted, b""):
            bad.append(name)
            print(f"{size} {name}: {words[0]} ends with {found[0]}, {found[2][-100:]!r}")

    file, text, out = folder / "sized", folder / "sized text", folder / "sized out"
    for name, content, ascii_text, lines in sized(size):
        file.write_bytes(content)
        if ascii_text is None:
            expect(name, ["keyed", file, "root"], lines)
            continue
        expect(name, ["print", file], lines)
        text.write_bytes(ascii_text)
        for source in (file, text):
            expect(name, ["convert", source, out], b"")
            expect(name, ["print", out], lines)
    return not bad


def reads_once(folder):
    """Returns whether `convert` takes a string that comes again without its content.

    10^5 references to a string of 64 KiB take some 0.01 s, and 2.5 s if each one is read and looked up."""
    count, size, file = 100_000, 1 << 16, folder / "one text.plist"
    references = struct.pack(f">BBI{count}I", 0xaf, 0x12, count, *[1] * count)
    file.write_bytes(file_of([references, struct.pack(">BBI", 0x5f, 0x12, size) + b"a" * size]))
    before = resource.getrusage(resource.RUSAGE_CHILDREN)
    status = subprocess.run([PROGRAM, "convert", file, folder / "one text again.plist"]).returncode
    after = resource.getrusage(resource.RUSAGE_CHILDREN)
    seconds = after.ru_utime + after.ru_stime - before.ru_utime - before.ru_stime
    if status == 0 and seconds < 1:
        return True
    print(f"10^5 references to a string of 64 KiB: status {status}, {seconds:.2f} s")
    return False


def sweep(driver, name, words, output=None):
    """Lets each allocation of a command fail in turn; `output` is the file that it writes."""
    counts = collections.Counter()

    def made():
        return output.read_bytes() if output and output.exists() else None

    if output:
        output.write_bytes(b"an older file")
    ample, _ = driver.run(0, words)
    whole = made()
    refused = 0
    while True:
        refused += 1
        if output:
            output.write_bytes(b"an older file")
        found, requests = driver.run(refused, words)
        if requests < refused and found == ample:
            break
        if found == ample and made() == whole:
            counts["as with enough memory"] += 1
        elif is_want_of_memory(found, ample) and made() == (b"an older file" if output else None):
            counts["OutOfMemory"] += 1
        else:
            counts["other"] += 1
            print(f"{name}, request {refused}: {found!r}, {made()!r}")
            if requests < refused:
                break
    print(f"{name}: {refused - 1} requests: " + ", ".join(f"{n} {what}" for what, n in sorted(counts.items())))
    return counts["other"]


def main():
    with tempfile.TemporaryDirectory() as name:
        folder = pathlib.Path(name)
        driver, out = Driver(folder), folder / "out.plist"
        text, cut, wide = folder / "text.plist", folder / "cut.plist", folder / "wide.plist"
        text.write_bytes(ASCII)
        # a line that is longer than the buffer
        wide.write_bytes(plistlib.dumps("x" * 70_000, fmt=plistlib.FMT_BINARY))
        cut.write_bytes(SETTINGS.read_bytes()[:-5])
        bad = sum([
            sweep(driver, "print", ["print", SETTINGS]),
            sweep(driver, "print of a cut file", ["print", cut]),
            sweep(driver, "print of a long line", ["print", wide]),
            sweep(driver, "convert of a binary file", ["convert", SETTINGS, out], out),
            sweep(driver, "convert of an ASCII file", ["convert", text, out], out),
            sweep(driver, "keyed", ["keyed", ARCHIVE, "root"]),
            sweep(driver, "keyed without such a key", ["keyed", ARCHIVE, "other"]),
            sweep(driver, "one word too many", ["convert", SETTINGS, out, "more"], out),
        ])
        wrong = [[], ["print"], ["print", SETTINGS, "more"], ["show", SETTINGS],
                 ["convert", SETTINGS, out, "more"], ["keyed", ARCHIVE, "root", "more"]]
        bad += sum(not is_usage(driver, words, out) for words in wrong)
        bad += not reads_far(driver, folder / "far.plist")
        bad += not reads_once(folder)
        bad += sum(not is_read(driver, folder, size) for size in SIZES)
    return 1 if bad else 0


if __name__ == "__main__":
    sys.exit(main())
