#!/usr/bin/env python3
"""Counts the lines of the documents.

    tests/outside/documents.py

Prints the number of lines and the name of each document, and the total. The status is 1 if the README
of a library has fewer than 30 lines or more than 140.
"""
import pathlib
import sys

TOP = pathlib.Path(__file__).resolve().parents[2]
PLACES = ["README.md", "CONTRIBUTING.md", "CHANGELOG.md", "docs/*.md", "crates/*/README.md"]


def main():
    lines = status = 0
    for place in PLACES:
        for document in sorted(TOP.glob(place)):
            count = document.read_bytes().count(b"\n")
            print(f"{count:5} {document.relative_to(TOP)}")
            if place.startswith("crates/") and not 30 <= count <= 140:
                status = 1
            lines += count
    print(f"{lines:5} all")
    return status


if __name__ == "__main__":
    sys.exit(main())
