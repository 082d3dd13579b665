#!/usr/bin/env python3
"""Checks that the Rust code that documents and doc comments quote is code of the repository.

Each block of Rust in README.md, docs/*.md and crates/plist/CALLING.md must be a whole file of examples, or
a sequence of lines of a source file, as must each block of Rust in a doc comment. The indentation may
differ. Only the crates of crates.txt count, which the gate compiles. A block in a doc comment must also
contain the name of the item. The status is 1 if a block is no such code, or if README.md doesn't quote
examples/first.rt.in.
"""
import collections
import pathlib
import re
import sys
import textwrap

TOP = pathlib.Path(__file__).resolve().parents[2]
sys.dont_write_bytecode = True
sys.path.insert(0, str(TOP / "tools"))
from source_items import items_of

FIRST = "examples/first.rt.in"
# The first lines of a crate's root, which a block may have before the lines of another file.
ROOT = "#![tactic(auto)]\n\n"
BLOCK = re.compile(r"(?ms)^```rust\n(.*?)^```")


def blocks_of(text):
    return [textwrap.dedent(block) for block in BLOCK.findall(text)]


class Sources:
    """The lines of all source files, by their text without indentation."""

    def __init__(self):
        crates = re.findall(r"(?m)^(\w+)\b[^:\n#]*:", (TOP / "crates.txt").read_text())
        paths = [path for crate in crates for path in (TOP / "crates" / crate / "src").rglob("*.rt")]
        self.files = {path: path.read_text() for path in paths}
        self.examples = [path.read_text() for path in (TOP / "examples").glob("*.in")]
        self.lines = {path: text.split("\n") for path, text in self.files.items()}
        self.places = collections.defaultdict(list)
        for path, lines in self.lines.items():
            for index, line in enumerate(lines):
                self.places[line.strip()].append((path, index))

    def have(self, block):
        """Returns whether a block is a whole example, or consecutive lines of a source file."""
        if block in self.examples:
            return True
        lines = block.removeprefix(ROOT).rstrip("\n").split("\n")
        wanted = "\n".join(lines)
        return any(textwrap.dedent("\n".join(self.lines[path][index:index + len(lines)])) == wanted
                   for path, index in self.places[lines[0].strip()])


def members(items):
    """Yields all items, and those in them."""
    for item in items:
        yield item
        yield from members(item.items)


def commented(sources):
    """Yields each block of a doc comment with its file, the number of its line, and the name of its item."""
    for path, text in sources.files.items():
        if "/// ```rust" in text:
            for item in members(items_of(path)):
                for block in blocks_of("\n".join(item.docs) + "\n"):
                    yield path, item, block


def main():
    sources, wrong, count = Sources(), [], 0
    documents = [TOP / "README.md", *sorted((TOP / "docs").glob("*.md")), TOP / "crates/plist/CALLING.md"]
    for document in documents:
        for block in blocks_of(document.read_text()):
            if not sources.have(block):
                begin = block.splitlines()[0]
                wrong.append(f"{document.relative_to(TOP)}: no source file has the block that begins with {begin}")
    if (TOP / FIRST).read_text() not in blocks_of((TOP / "README.md").read_text()):
        wrong.append(f"README.md doesn't quote {FIRST}")
    for path, item, block in commented(sources):
        where = f"{path.relative_to(TOP)}:{item.line}"
        count += 1
        if not sources.have(block):
            wrong.append(f"{where}: no source file has the example of {item.name}")
        elif not re.search(rf"\b{item.name}\b", block):
            wrong.append(f"{where}: the example doesn't name {item.name}")
    if not count:
        wrong.append("no doc comment has an example")
    for problem in wrong:
        print(problem)
    return 1 if wrong else 0


if __name__ == "__main__":
    sys.exit(main())
