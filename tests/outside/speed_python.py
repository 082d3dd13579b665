#!/usr/bin/env python3
"""Compares the speed of the Python package with plistlib, on files that it makes.

The files are some shapes of speed.py, and Info.plist files of many applications in one list (17,600 for 10 MB).
`loads` and `dumps` of both run in turn in one process, and for each the least processor time of some
runs counts. Printed are tables in Markdown: milliseconds, and in parentheses the package's time by
plistlib's. Before that it is tested that both return the same.

`loads` has no limits here, since plistlib has none. `dumps` of plistlib doesn't sort the keys, and
neither does that of the package. Both are given the value that plistlib reads.

Usage: speed_python.py [MEGABYTES]      10 by default

Needs the archive of crates/plist_c, the kit and a C compiler.
"""
import gc
import plistlib
import sys
import time

import python_package
import speed

sizhetom = python_package.build()

RUNS = 7
NO_LIMITS = {"max_depth": None, "max_events": None, "max_bytes": None}


def small_info(_):
    return plistlib.dumps(speed.info_of(1), fmt=plistlib.FMT_BINARY, sort_keys=False)


SHAPES = {
    "settings": speed.settings, "distinct strings": speed.distinct_texts, "integers": speed.integers,
    "Info.plist, many in a list": speed.infos, "a keyed archive": speed.keyed_archive, "blobs": speed.blobs,
    "repeated strings": speed.repeated_texts, "one Info.plist": small_info,
}


def timed(call, times):
    """Returns the processor seconds of a call, from as many calls as asked for."""
    start = time.process_time()
    for _ in range(times):
        call()
    return (time.process_time() - start) / times


def best(calls):
    """Returns the least time of each of these calls, which run in turn."""
    least = []
    for call in calls:
        gc.collect()
        least.append(timed(call, 1))
    times = [max(1, int(0.02 / seconds)) for seconds in least]
    for _ in range(RUNS - 1):
        for index, call in enumerate(calls):
            gc.collect()
            least[index] = min(least[index], timed(call, times[index]))
    return least


def cells(ours, theirs):
    digits = 3 if theirs < 0.01 else 1
    return f"{ours * 1e3:.{digits}f} ({ours / theirs:.2f}) | {theirs * 1e3:.{digits}f}"


def measure(name, data):
    """Prints the row of a file."""
    value = plistlib.loads(data)
    if sizhetom.loads(data, **NO_LIMITS) != value or plistlib.loads(sizhetom.dumps(value)) != value:
        sys.exit(f"{name}: the package and plistlib differ")
    loads = best([lambda: sizhetom.loads(data, **NO_LIMITS), lambda: plistlib.loads(data)])
    dumps = best([lambda: sizhetom.dumps(value),
                  lambda: plistlib.dumps(value, fmt=plistlib.FMT_BINARY, sort_keys=False)])
    share, = best([lambda: sizhetom.dumps(value, share=True)])
    shared = f"{share * 1e3:.{3 if share < 0.01 else 1}f}"
    print(f"| {name} | {len(data):,} | {cells(*loads)} | {cells(*dumps)} | {shared} |", flush=True)


def main(words):
    size = int(words[0]) * 1_000_000 if words else 10_000_000
    print("| shape | bytes | `loads` | plistlib | `dumps` | plistlib | `dumps`, `share` |")
    print("|---|---|---|---|---|---|---|")
    for name, shape in SHAPES.items():
        measure(name, shape(size))


if __name__ == "__main__":
    main(sys.argv[1:])
