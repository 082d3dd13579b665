"""Compares the numbers and names of events, faults and limits in the header and in the bindings with
the order of the enums in `crates/plist_base`."""
import pathlib
import re
import runpy

TOP = pathlib.Path(__file__).resolve().parents[3]
HEADER = TOP / "bindings/c/sizhetom.h"
PRINT = TOP / "bindings/c/examples/print.c"
RUST = TOP / "bindings/rust/src"
PYTHON = TOP / "bindings/python/src/sizhetom/_errors.py"
# The faults that only the functions for C have.
OWN_FAULTS = ["NoRoom", "InvalidKind", "InvalidNumber", "InvalidRange", "InvalidText"]


def variants(path, name):
    """Returns the names of an enum's variants, in order."""
    body = re.search(rf"pub enum {name} {{\n(.*?)\n}}\n", path.read_text(), re.DOTALL)[1]
    return re.findall(r"^    ([A-Z]\w*)", body, re.MULTILINE)


def constants(start, end):
    """Returns the names and numbers of the header's constants, from one to another."""
    found = re.findall(r"SIZHETOM_(\w+) = (\d+)", HEADER.read_text())
    names = [name for name, _ in found]
    return [(name, int(number)) for name, number in found[names.index(start):names.index(end) + 1]]


def constant_of(variant):
    """Returns the header's name of a variant: `InvalidUtf8String` is INVALID_UTF8_STRING there."""
    return re.sub(r"(?<=[a-z0-9])(?=[A-Z])", "_", variant).upper()


def numbered(variants_of_enum, first=1):
    return [(constant_of(name), number) for number, name in enumerate(variants_of_enum, first)]


def strings(array):
    """Returns the strings of an array in examples/print.c, without the first one, which is empty."""
    body = re.search(rf"\b{array}\[\] = {{(.*?)}};", PRINT.read_text(), re.DOTALL)[1]
    return re.findall(r'"(\w+)"', body)


def arms(path, enum):
    """Returns the variants that a Rust file has for the numbers from 1 on."""
    found = re.findall(rf"^ +(\d+)(?: if .*)? => {enum}::(\w+)", path.read_text(), re.MULTILINE)
    return [(constant_of(name), int(number)) for number, name in dict.fromkeys(found)]


def rows():
    """Yields what is compared: a description, what is found, and what is expected."""
    error, limits = (TOP / "crates/plist_base/src" / name for name in ("error.rt", "limits.rt"))
    kinds, faults = variants(error, "EventKind"), variants(error, "ErrorKind") + OWN_FAULTS
    limit = variants(limits, "Limit")
    yield "kinds of the header", constants("START_ARRAY", "DICTIONARY_KEY_OR_END_COLLECTION"), numbered(kinds)
    yield "faults of the header", constants("OK", "INVALID_TEXT"), [("OK", 0), *numbered(faults)]
    names = {"DEPTH": "LIMIT_DEPTH", "ITEMS": "LIMIT_EVENTS"}
    yield ("limits of the header", constants("LIMIT_DEPTH", "LIMIT_EVENTS"),
           [(names[name], number) for name, number in numbered(limit, 0)])
    yield "kinds of print.c", strings("kinds"), kinds
    yield "faults of print.c", strings("faults"), faults
    yield "kinds of the Rust crate", variants(RUST / "fault.rs", "EventKind"), kinds
    yield "faults of the Rust crate", variants(RUST / "fault.rs", "FaultKind"), faults
    yield "limits of the Rust crate", variants(RUST / "limits.rs", "Limit"), [*limit, "Bytes"]
    yield "numbers of kinds of the Rust crate", arms(RUST / "fault.rs", "EventKind"), numbered(kinds)
    yield "numbers of faults of the Rust crate", arms(RUST / "fault.rs", "FaultKind"), numbered(faults)
    yield "numbers of events of the Rust crate", arms(RUST / "event.rs", "Event"), numbered(kinds[:10])
    numbers = dict(constants("NO_ROOM", "FULL_LIMIT"))
    used = {name: int(number) for name, number in
            re.findall(r"const (\w+): u64 = (\d+);", (RUST / "ffi.rs").read_text())}
    yield "constants of the Rust crate", used, {name: numbers.get(name) for name in ("NO_ROOM", "FULL_EVENTS", "FULL_BYTES")}
    if PYTHON.exists():
        python = runpy.run_path(str(PYTHON))
        yield "kinds of the Python package", list(python["EVENT_KINDS"]), ["", *kinds]
        yield "faults of the Python package", list(python["FAULT_KINDS"]), ["", *faults]
        yield "limits of the Python package", list(python["LIMITS"]), limit


def differences():
    """Yields a line for each difference."""
    for what, found, wanted in rows():
        if found != wanted:
            yield f"{what}: {found} in place of {wanted}"
