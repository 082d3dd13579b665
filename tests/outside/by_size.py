#!/usr/bin/env python3
"""Reads and writes values of several sizes by the Python package: strings, data, keys, arrays, dictionaries
and levels of 0, 1, 65,536, 65,537 and 1,000,000 characters, bytes, items, pairs or levels.

No contract says that a call which allocates succeeds, so a body that returns `OutOfMemory` for everything
large is proved. Here nothing fails: each file must be read as the value from which second.py wrote it, by
`loads` and by `events`, in the binary form and in the ASCII form; and each value must be written as the
bytes of second.py. No two collections in a value are equal, so with `share` the same bytes are written.
`plist_tool keyed` prints the trees of keyed archives with strings, arrays and levels of these sizes.

Usage: by_size.py [SIZE ..]

Needs what python_package.py needs, and the built `plist_tool`. The status is 1 if a value, an event, a file
or a line differs.
"""
import pathlib
import plistlib
import subprocess
import sys
import tempfile

import python_package
import second

PROGRAM = pathlib.Path(__file__).resolve().parents[2] / "crates/plist_tool/out/plist_tool"
SIZES = (0, 1, 65_536, 65_537, 1_000_000)
NO_LIMITS = {"max_depth": None, "max_events": None, "max_bytes": None}


def nested(levels):
    inner = "inside"
    for _ in range(levels):
        inner = [inner]
    return inner


# What has a size: the value of this size, and whether the ASCII form has it, too.
VALUES = {
    "a string in ASCII": (lambda size: "a" * size, True),
    "a string in UTF-16": (lambda size: "é" * size, True),
    "a string of pairs of surrogates": (lambda size: "😀" * size, False),
    "data": (lambda size: b"\x80" * size, False),
    "a key in ASCII": (lambda size: {"a" * size: "value"}, True),
    "a key in UTF-16": (lambda size: {"é" * size: "value"}, True),
    "an array of integers": (lambda size: list(range(size)), False),
    "an array of short strings": (lambda size: [f"{number}" for number in range(size)], True),
    "an array of long strings": (lambda size: [f"the long string {number}" for number in range(size)], True),
    "an array of one short string": (lambda size: ["one"] * size, True),
    "an array of one long string": (lambda size: ["one and the same string"] * size, True),
    "a dictionary": (lambda size: {f"the key {number}": "value" for number in range(size)}, True),
    "levels": (nested, True),
}


# The objects of an archive after "$null", of which the first is its root, and the events of their tree.
ARCHIVES = {
    "a string": lambda size: (["a" * size], [("String", b"a" * size)]),
    "an array": lambda size: (
        [[plistlib.UID(number + 2) for number in range(size)], *(f"object {number}" for number in range(size))],
        [("StartArray", size), *(("String", b"object %d" % number) for number in range(size)), ("EndCollection",)]),
    "levels": lambda size: (
        [*([plistlib.UID(number + 2)] for number in range(size)), "inside"],
        [*[("StartArray", 1)] * size, ("String", b"inside"), *[("EndCollection",)] * size]),
}


def plain(value):
    """Returns a value in the form of second.py, whose scalars are pairs of a kind and bytes or a number."""
    outer = []
    waiting = [(value, outer)]
    while waiting:
        one, target = waiting.pop()
        if isinstance(one, str):
            target.append(("String", one.encode()))
        elif isinstance(one, bytes):
            target.append(("Data", one))
        elif isinstance(one, int):
            target.append(("Integer", one))
        elif isinstance(one, list):
            items = []
            target.append(items)
            waiting.extend((item, items) for item in reversed(one))
        else:
            # the values of these dictionaries are scalars
            target.append({key.encode(): ("String", item.encode()) for key, item in one.items()})
    return outer[0]


def is_same(first, other):
    """Compares two values without recursion."""
    waiting = [(first, other)]
    while waiting:
        one, two = waiting.pop()
        if type(one) is not type(two):
            return False
        if isinstance(one, list):
            if len(one) != len(two):
                return False
            waiting.extend(zip(one, two))
        elif isinstance(one, dict):
            if list(one.items()) != list(two.items()):
                return False
        elif one != two:
            return False
    return True


def events_of(value):
    """Yields the kind and the value of each event of a value, without the lengths of starts."""
    waiting = [value]
    while waiting:
        one = waiting.pop()
        if one is None:
            yield "EndCollection", None
        elif isinstance(one, list):
            yield "StartArray", None
            waiting += [None, *reversed(one)]
        elif isinstance(one, dict):
            yield "StartDictionary", None
            waiting += [None, *(part for pair in reversed(one.items()) for part in reversed(pair))]
        else:
            yield {str: "String", bytes: "Data", int: "Integer"}[type(one)], one


def ascii_of(value):
    """Returns the ASCII form of a value of strings, arrays and dictionaries."""
    parts = []
    for kind, content in events_of(value):
        parts.append({"StartArray": "(", "StartDictionary": "{", "EndCollection": ")"}.get(kind) or f'"{content}"')
    if isinstance(value, dict):
        return "".join(["{", *(f'"{key}" = "{item}";' for key, item in value.items()), "}"]).encode()
    separated = []
    for number, part in enumerate(parts):
        if number and part != ")" and parts[number - 1] != "(":
            separated.append(",")
        separated.append(part)
    return "".join(separated).encode()


def has_same_events(sizhetom, file, value):
    found = ((one.kind, None if one.kind.startswith("Start") else one.value) for one in sizhetom.events(file, **NO_LIMITS))
    wanted = events_of(value)
    return all(one == two for one, two in zip(found, wanted, strict=True))


def differences(sizhetom, value, in_ascii):
    """Yields what differs for a value."""
    file = second.file_of(plain(value))
    if not is_same(sizhetom.loads(file, **NO_LIMITS), value):
        yield "loads"
    if not has_same_events(sizhetom, file, value):
        yield "events"
    if sizhetom.dumps(value) != file:
        yield "dumps"
    if sizhetom.dumps(value, share=True) != file:
        yield "dumps with share"
    if in_ascii:
        text = ascii_of(value)
        if not is_same(sizhetom.loads(text, **NO_LIMITS), value):
            yield "loads of the ASCII form"
        if not has_same_events(sizhetom, text, value):
            yield "events of the ASCII form"


def prints_archive(folder, objects, events):
    """Returns whether `keyed` prints these events for an archive of these objects."""
    file = pathlib.Path(folder) / "archive.plist"
    file.write_bytes(plistlib.dumps(
        {"$version": 100_000, "$archiver": "NSKeyedArchiver", "$top": {"root": plistlib.UID(1)}, "$objects": ["$null", *objects]},
        fmt=plistlib.FMT_BINARY))
    done = subprocess.run([PROGRAM, "keyed", file, "root"], capture_output=True)
    wanted = "".join(second.line_of(event) + "\n" for event in events).encode()
    return (done.returncode, done.stdout, done.stderr) == (0, wanted, b"")


def main(words):
    sizhetom, status, count = python_package.build(), 0, 0
    for size in [int(word) for word in words] or SIZES:
        for name, make in ARCHIVES.items():
            with tempfile.TemporaryDirectory() as folder:
                if not prints_archive(folder, *make(size)):
                    print(f"an archive with {name}, {size:,}: keyed differs")
                    status = 1
            count += 1
        for name, (make, in_ascii) in VALUES.items():
            for call in differences(sizhetom, make(size), in_ascii):
                print(f"{name}, {size:,}: {call} differs")
                status = 1
            count += 1
    print(f"{count} values")
    return status


if __name__ == "__main__":
    sys.exit(main(sys.argv[1:]))
