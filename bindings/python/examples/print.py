#!/usr/bin/env python3
"""Prints the events of property lists, one per line, as `plist_tool print` does for a binary file.

    print.py FILE..

The error of a file is printed to standard error, and the status is then 1. Without a file the usage is
printed, and the status is 2.
"""
import math
import pathlib
import re
import struct
import sys

import sizhetom

ESCAPED = re.compile(rb'[^ !#-\[\]-~]')


def escaped(text):
    """Returns a string's UTF-8, with `\\xHH` for quotes, backslashes and bytes beyond printable ASCII."""
    return ESCAPED.sub(lambda found: b"\\x%02x" % found[0][0], text.encode())


def date_of(bits):
    """Returns what is printed for a date: its second, and its bytes if it has a fraction."""
    seconds, = struct.unpack(">d", bits)
    fraction = b"" if seconds.is_integer() else b" " + bits.hex().encode()
    return b"%d" % math.floor(seconds) + fraction


def line_of(event):
    """Returns the line of an event."""
    kind, value, bits = event
    if kind == "String":
        return b'String "%s"\n' % escaped(value)
    if kind == "Data":
        text = value.hex()
    elif kind == "Real":
        text = bits.hex()
    elif kind == "Date":
        text = date_of(bits).decode()
    elif kind == "Boolean":
        text = "true" if value else "false"
    elif kind == "Uid":
        text = str(value.data)
    else:
        text = "" if value is None else str(value)
    return f"{kind} {text}".rstrip().encode() + b"\n"


def printed(data):
    """Returns what is printed for these bytes to standard output, and to standard error."""
    lines = []
    try:
        for event in sizhetom.events(data, max_depth=None, max_events=None, max_bytes=None):
            lines.append(line_of(event))
    except sizhetom.PlistError as error:
        return b"".join(lines), f"Error: {error}\n".encode()
    except MemoryError:
        return b"".join(lines), b"Error: OutOfMemory\n"
    return b"".join(lines), b""


def main(paths):
    if not paths:
        print("usage: print.py FILE..", file=sys.stderr)
        return 2
    status = 0
    for path in paths:
        try:
            lines, error = printed(pathlib.Path(path).read_bytes())
        except OSError as failure:
            lines, error = b"", f"Error: {failure}\n".encode()
        sys.stdout.buffer.write(lines)
        sys.stdout.flush()
        sys.stderr.buffer.write(error)
        sys.stderr.flush()
        status = max(status, 1 if error else 0)
    return status


if __name__ == "__main__":
    sys.exit(main(sys.argv[1:]))
