#!/usr/bin/env python3
"""Measures the peak memory of `plist_tool` on files that are made to need much.

The first table is for `print`. For each file it has the peak memory, less that for a file with one
empty array, and how much of this exceeds 2 MiB plus 12 bytes for each object for which the file has
room. The next column has the peak memory of `BinaryReader` alone, again less that for a file with one
empty array. `BinaryReader` reads the same bytes from memory, and these bytes themselves don't count.
The program for this is `tests/outside/items`, which is proved and built in a copy of its crates unless
ITEMS names it.

The second table is for `convert` and `keyed`, which have no limits. It has the peak memory for each
file: in all, for each event, and for each byte of the file. If a file takes more than 4 MiB, the
command runs again under `ulimit -v` of 4 MiB plus half its peak. It must then report `OutOfMemory`
with status 1, and OUT of `convert` must be unchanged. The same is tried under 256 MiB with files that
unfold to more than 2^42 events.

Usage: peak_memory.py [ITEMS]

Needs the built `plist_tool` and a C compiler. The status is 1 if a run does otherwise.
"""
import itertools
import pathlib
import plistlib
import random
import sys
import tempfile

import bounded
import mutations
import speed

SHORT_OF_MEMORY = b"Error: OutOfMemory\n"
OLDER = b"an older file"
MEGABYTE = 1 << 20
OBJECT, WINDOWS = 12, 2 * MEGABYTE
UNBOUNDED, ROOM = 42, 256 << 10
# the address space of the program and its call stack, in KiB
START = 4 << 10
# the limit of the address space of every run, in KiB
MOST_ROOM = 4 << 20


# ---- the files

def container(objects, root=0, width=4, reference=4, places=None):
    """Returns a file of these objects; `places` are the offsets, if they aren't those of the objects."""
    starts = list(itertools.accumulate(map(len, objects), initial=8))
    places = starts[:-1] if places is None else places
    table = b"".join(place.to_bytes(width, "big") for place in places)
    return b"bplist00" + b"".join(objects) + table + trailer(len(places), root, starts[-1], width, reference)


def trailer(count, root, table, width, reference):
    numbers = b"".join(number.to_bytes(8, "big") for number in (count, root, table))
    return bytes(6) + bytes([width, reference]) + numbers


def with_length(kind, count):
    return bytes([kind << 4 | 15, 0x12]) + count.to_bytes(4, "big")


def array(references, width=4):
    return with_length(10, len(references)) + b"".join(number.to_bytes(width, "big") for number in references)


def text(count):
    return with_length(5, count) + b"x" * count


def wide_text(units, unit="é"):
    return with_length(6, units) + unit.encode("utf-16-be") * units


def shared(content, times):
    """Returns a file with an array of this many references of one byte to one object."""
    return container([with_length(10, times) + b"\1" * times, content], reference=1)


def doubling_pairs(depth):
    """Returns dictionaries of two pairs with the same key, whose values are the next dictionary."""
    file = speed.File()
    key, inner = file.text("k"), file.array([])
    for _ in range(depth):
        inner = file.dictionary([(key, inner), (key, inner)])
    return file.bytes(inner)


def levels_of_pairs(count):
    file = speed.File()
    key, inner = file.text("k"), file.array([])
    for _ in range(count - 1):
        inner = file.dictionary([(key, inner)])
    return file.bytes(inner)


def one_place(count):
    """Returns a file whose offsets have one byte and are all of one object."""
    return container([b"\x10\5"], width=1, places=[8] * count)


def one_place_each(count):
    """Returns a file whose root refers to each other number; all their offsets are equal."""
    return container([array(range(1, count)), b"\x10\5"], places=[8] + [8 + 6 + 4 * (count - 1)] * (count - 1))


def huge_count(count):
    """Returns a short file whose trailer claims many objects."""
    return b"bplist00" + b"\xa0" + b"\x08" + trailer(count, 0, 9, 1, 1)


def far_apart(count, rounds):
    """Returns a file of strings some 8 KiB apart, and an array of random references to them."""
    rng = random.Random(1)
    objects, places, place = [], [], 8
    for number in range(count):
        objects += [b"\x5b" + b"%011d" % number, bytes(8200)]
        places.append(place)
        place += 12 + 8200
    references = array([rng.randrange(count) for _ in range(rounds)])
    return container([*objects, references], root=count, places=[*places, place])


def repeated_keys(count):
    file = speed.File()
    key, value = file.text("k"), file.add(b"\x09")
    return file.bytes(file.dictionary([(key, value)] * count))


def archive(depth):
    """Returns an archive whose objects are arrays of two references to the next one."""
    objects = [[plistlib.UID(number + 1)] * 2 for number in range(depth)] + ["end"]
    return mutations.archive_of(objects, 0)


def chain(count):
    """Returns an archive whose objects are dictionaries that refer to the next one."""
    file = speed.File()
    names = [file.text(name) for name in ("$objects", "$top", "root", "next")]
    end, first = file.add(b"\x09"), file.add(b"\x80\0")
    objects = [file.dictionary([(names[3], file.add(b"\x83" + (number + 1).to_bytes(4, "big")))])
               for number in range(count - 1)]
    top = file.dictionary([(names[2], first)])
    return file.bytes(file.dictionary([(names[0], file.array([*objects, end])), (names[1], top)]))


EMPTY = container([b"\xa0"])
PRINTED = {
    "1,000 references to a text of 1 MiB": lambda: shared(text(MEGABYTE), 1000),
    "1,000 references to a wide text of 1 MiB": lambda: shared(wide_text(MEGABYTE // 2), 1000),
    "1,000 references to data of 1 MiB": lambda: shared(with_length(4, MEGABYTE) + bytes(MEGABYTE), 1000),
    "doubling, 2^20 arrays": lambda: speed.doubling(19),
    "doubling, 2^20 dictionaries": lambda: doubling_pairs(19),
    "10^6 levels of arrays": lambda: speed.levels(10**6),
    "10^6 levels of dictionaries": lambda: levels_of_pairs(10**6),
    "10^7 offsets of one object": lambda: one_place(10**7),
    "10^7 offsets of one object, each referred to": lambda: one_place_each(10**7),
    "2^40 objects in 42 bytes": lambda: huge_count(1 << 40),
    "2^64 - 1 objects in 42 bytes": lambda: huge_count((1 << 64) - 1),
    "5,000 texts 8 KiB apart, 10^6 references": lambda: far_apart(5000, 10**6),
}

# Files for which the commands need the most memory: how each is made, and the number of its events, or of
# those of the tree that is printed.
CONVERTED = {
    "10^7 references of one byte": (lambda: shared(b"\x09", 10**7), 10**7 + 2),
    "1,000 references to a text of 1 MiB": (lambda: shared(text(MEGABYTE), 1000), 1002),
    "doubling, 2^20 arrays": (lambda: speed.doubling(19), 2 * (2**20 - 1)),
    "doubling, 2^20 dictionaries of one key twice": (lambda: doubling_pairs(19), 6 * 2**19 - 4),
    "10^6 levels of arrays": (lambda: speed.levels(10**6), 2 * 10**6),
    "10^6 levels of dictionaries": (lambda: levels_of_pairs(10**6), 3 * 10**6 - 1),
    "10^6 pairs of one key": (lambda: repeated_keys(10**6), 2 * 10**6 + 2),
    "10^6 different integers": (lambda: speed.integers(13 * 10**6), 10**6 + 2),
    "ASCII, 10^6 levels of arrays": (lambda: b"(" * 10**6 + b")" * 10**6, 2 * 10**6),
    "ASCII, 10^6 levels of dictionaries": (lambda: b"{a =" * 10**6 + b"b" + b";}" * 10**6, 3 * 10**6 + 1),
    "ASCII, 10^6 empty arrays": (lambda: b"(" + b"()," * 10**6 + b")", 2 * 10**6 + 2),
    "ASCII, 10^6 empty dictionaries": (lambda: b"(" + b"{}," * 10**6 + b")", 2 * 10**6 + 2),
    "ASCII, 10^6 dictionaries of a pair": (lambda: b"(" + b"{a =b;}," * 10**6 + b")", 4 * 10**6 + 2),
    "ASCII, 10^6 equal texts": (lambda: b"(" + b"a," * 10**6 + b")", 10**6 + 2),
}
KEYED = {
    "archive, doubling, 2^18 arrays": (lambda: archive(18), 3 * 2**18 - 2),
    "archive, 10^5 dictionaries in a row": (lambda: chain(10**5), 3 * 10**5 - 2),
}
UNFOLDING = {
    ("convert", f"doubling, 2^{UNBOUNDED} arrays"): lambda: speed.doubling(UNBOUNDED - 1),
    ("convert", f"doubling, 2^{UNBOUNDED} dictionaries"): lambda: doubling_pairs(UNBOUNDED - 1),
    ("keyed", f"archive, doubling, 2^{UNBOUNDED} arrays"): lambda: archive(UNBOUNDED),
}


# ---- the tables

class Tables:
    """Runs the programs, and prints their peak memory."""

    def __init__(self, folder, items):
        self.starter, self.items, self.bad = bounded.Starter(folder), items, 0
        self.source, self.target, self.error = (folder / name for name in ("in", "out", "error"))
        self.source.write_bytes(EMPTY)
        self.nothing = {command: self.run(self.words(command)).peak for command in ("print", "convert", "keyed")}
        if items:
            self.nothing["items"] = self.starter.run([items, self.source, 1]).peak - len(EMPTY)

    def run(self, words, room=MOST_ROOM):
        return self.starter.run([speed.PROGRAM, *words], room, out="/dev/null", err=self.error)

    def words(self, command):
        return [command, self.source, *{"convert": [self.target], "keyed": ["root"]}.get(command, [])]

    def printed(self, name, content):
        self.source.write_bytes(content)
        objects = int.from_bytes(content[-24:-16], "big")
        ended = self.run(["print", self.source])
        peak = ended.peak - self.nothing["print"]
        alone = "-"
        if self.items:
            again = self.starter.run([self.items, self.source, 1])
            held = again.peak - len(content) - self.nothing["items"]
            alone = f"{held:,}" if again.status == ended.status else f"status {again.status}"
        told = self.error.read_text().strip() or "-"
        excess = max(0, peak - OBJECT * min(objects, len(content)) - WINDOWS)
        a_one = f"{peak / objects:.1f}" if 10**5 < objects < len(content) else "-"
        print(f"| {name} | {len(content):,} | {objects:,} | {peak:,} | {a_one} | {excess:,} "
              f"| {alone} | {ended.seconds:.2f} | {told} |", flush=True)

    def ends_short(self, words, room):
        """Returns how a command ends under a limit. It must report `OutOfMemory`, and leave OUT unchanged."""
        self.target.write_bytes(OLDER)
        ended = self.run(words, room)
        told, left = self.error.read_bytes(), self.target.read_bytes()
        right = ended.status == 1 and told == SHORT_OF_MEMORY and left == OLDER
        self.bad += not right
        return "OutOfMemory" if right else f"UNEXPECTED: {ended}, {told!r}"

    def held(self, command, name, content, events):
        self.source.write_bytes(content)
        ended = self.run(self.words(command))
        peak = ended.peak - self.nothing[command]
        if ended.status:
            self.bad += 1
            name += f", UNEXPECTED: {ended}, {self.error.read_bytes()!r}"
        # a command whose peak is at most START isn't run again
        short = self.ends_short(self.words(command), START + peak // 2048) if peak > START << 10 else "-"
        print(f"| `{command}`, {name} | {len(content):,} | {events:,} | {peak / 1e6:.1f} MB | {peak / events:.1f} "
              f"| {peak / len(content):,.1f} | {ended.seconds:.2f} | {short} |", flush=True)

    def unfolding(self, command, name, content):
        self.source.write_bytes(content)
        ends = self.ends_short(self.words(command), ROOM)
        print(f"- `{command}` of {name}, {len(content):,} bytes: {ends}", flush=True)


def main(words):
    with tempfile.TemporaryDirectory() as name:
        folder = pathlib.Path(name)
        items = pathlib.Path(words[0]).resolve() if words else speed.items_program(folder)
        tables = Tables(folder, items)
        speed.heading(["`print`, shape", "bytes", "objects", "peak bytes", "an object", "beyond", "`BinaryReader`",
                       "seconds", "fault"])
        for shape, make in PRINTED.items():
            tables.printed(shape, make())
        print()
        speed.heading(["shape", "bytes", "events", "peak", "bytes an event", "bytes a byte", "seconds",
                       "with half of it"])
        for command, shapes in (("convert", CONVERTED), ("keyed", KEYED)):
            for shape, (make, events) in shapes.items():
                tables.held(command, shape, make(), events)
        print(f"\nUnder {ROOM >> 10} MiB:\n")
        for (command, shape), make in UNFOLDING.items():
            tables.unfolding(command, shape, make())
    return 1 if tables.bad else 0


if __name__ == "__main__":
    sys.exit(main(sys.argv[1:]))
