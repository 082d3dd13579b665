"""Reads many files by the package for Python. For each one three answers are written: what
bindings/python/examples/print.py prints to standard output and to standard error, and the error of
`sizhetom.loads`, or nothing."""
import struct
import sys

import print as printing
import sizhetom


def files(source):
    while length := source.read(4):
        yield source.read(struct.unpack("=I", length)[0])


def error_of_value(data):
    try:
        sizhetom.loads(data, max_depth=None, max_events=None, max_bytes=None)
    except sizhetom.PlistError as error:
        return f"Error: {error}\n".encode()
    return b""


def main():
    for data in files(sys.stdin.buffer):
        for answer in (*printing.printed(data), error_of_value(data)):
            sys.stdout.buffer.write(struct.pack("=I", len(answer)) + answer)


main()
