#!/usr/bin/env python3
"""Compares what `plist_tool` prints and writes with what other programs read.

Binary property lists are made with Python's plistlib, with plistutil (libplist), with plser
(GNUstep) and by hand, and ASCII ones with plser and by hand. The other programs read each file, and
what they read is turned into lines. `plist_tool print` must print the same lines for a binary file.
The files that `plist_tool convert` writes for both formats are read by the other programs, with the
same result. Files that are named on the command line are compared, too. If one isn't binary, plser
makes a binary one of it first.

What another program doesn't support isn't compared with it:
- plistutil drops the sign of a zero and the fraction of a date, writes a year before 1000 without its
  leading zeros, prints no Uid of more than 32 bits, and makes no Uid from XML.
- plser doesn't read integers of 16 bytes, Uids of more than two bytes, or lengths in eight bytes. It
  drops the fraction of a date, rounds reals of four bytes, and escapes characters past U+FFFF. It
  changes the order of dictionaries, so pairs are compared in the order of their keys.
- XML has no control characters except tabs and line ends, loses CR, and has no U+FFFE.

Faults aren't compared, because the other programs disagree about them. These were tried: null and
fill objects, sets, URLs, a lone surrogate, integers of 16 bytes that don't fit, and dates that are
not a number or out of range. For `plist_tool`, plistutil and plser, an ASCII file with bytes above
127 is UTF-8; plistlib rejects it.

Usage: compare.py [--trees N] [FILE ..]      N random trees of each kind, 150 by default

The status is 1 if a line differs or a program fails.

Needs Python 3.8 or later, plistutil and plser.
"""
import collections
import datetime
import itertools
import pathlib
import plistlib
import random
import struct
import subprocess
import sys
import tempfile

TOP = pathlib.Path(__file__).resolve().parents[2]
# PLIST_TOOL is a script that builds PROGRAM if that is needed
PLIST_TOOL, PROGRAM = TOP / "plist_tool", TOP / "crates/plist_tool/out/plist_tool"
TREES_OF_A_KIND = 150
EPOCH = datetime.datetime(2001, 1, 1)
SECOND = datetime.timedelta(seconds=1)


def run(*words):
    return subprocess.run([str(word) for word in words], check=True, capture_output=True).stdout


def flat(lists):
    return list(itertools.chain.from_iterable(lists))


# ---- the lines of a value

def line_of_text(text):
    characters = (chr(byte) if 0x20 <= byte < 0x7F and byte not in b'"\\' else f"\\x{byte:02x}"
                  for byte in text.encode())
    return f'String "{"".join(characters)}"'


def line_of_date(date):
    bits = struct.pack(">d", (date - EPOCH).total_seconds()).hex()
    return f"Date {(date - EPOCH) // SECOND}" + (f" {bits}" if date.microsecond else "")


LINE_OF = {
    bool: lambda value: f"Boolean {str(value).lower()}",
    int: lambda value: f"Integer {value}",
    float: lambda value: f"Real {struct.pack('>d', value).hex()}",
    str: line_of_text,
    bytes: lambda value: f"Data {value.hex()}".rstrip(),
    datetime.datetime: line_of_date,
    plistlib.UID: lambda value: f"Uid {value.data}",
}


def lines_of(value):
    if isinstance(value, list):
        return [f"StartArray {len(value)}", *flat(map(lines_of, value)), "EndCollection"]
    if isinstance(value, dict):
        return [f"StartDictionary {len(value)}", *flat(map(lines_of, flat(value.items()))), "EndCollection"]
    return [LINE_OF[type(value)](value)]


def with_long_real(line):
    """Replaces reals of four bytes by those of eight, since no other program distinguishes them."""
    word, _, digits = line.partition(" ")
    if word == "Real" and len(digits) == 8:
        return LINE_OF[float](*struct.unpack(">f", bytes.fromhex(digits)))
    return line


def printed(path):
    return [with_long_real(line) for line in run(PROGRAM, "print", path).decode("ascii").splitlines()]


def converted(path):
    made = path.with_suffix(".converted")
    made.unlink(missing_ok=True)
    run(PROGRAM, "convert", path, made)
    return made


def sorted_by_key(lines):
    """Returns the lines, with the pairs of each dictionary in the order of their keys."""
    rest = iter(lines)

    def take():
        line = next(rest)
        if not line.startswith("Start"):
            return [line]
        children = list(iter(take, ["EndCollection"]))
        if line.startswith("StartDictionary"):
            children = flat(sorted(zip(children[::2], children[1::2])))
        return [line, *flat(children), "EndCollection"]
    return take()


# ---- the other programs

def with_uids(value, is_uid, uid):
    if is_uid(value):
        return uid(value)
    if isinstance(value, list):
        return [with_uids(item, is_uid, uid) for item in value]
    if isinstance(value, dict):
        return {key: with_uids(item, is_uid, uid) for key, item in value.items()}
    return value


def xml_of(value, path, uid):
    value = with_uids(value, lambda v: isinstance(v, plistlib.UID), uid)
    path.write_bytes(plistlib.dumps(value, sort_keys=False))
    return path


def from_xml(xml):
    value = plistlib.loads(xml, fmt=plistlib.FMT_XML)
    return with_uids(value, lambda v: isinstance(v, dict) and list(v) == ["CF$UID"],
                     lambda v: plistlib.UID(v["CF$UID"]))


def plser(path, form):
    name = "NSPropertyListOpenStepFormat" if form == "OpenStep" else f"NSPropertyList{form}Format_v1_0"
    return run("plser", "-Format", name, path)


Program = collections.namedtuple("Program", "write read keeps_order")

PROGRAMS = {
    "plistlib": Program(
        lambda value, _: plistlib.dumps(value, fmt=plistlib.FMT_BINARY, sort_keys=False),
        lambda path: plistlib.loads(path.read_bytes(), fmt=plistlib.FMT_BINARY), True),
    # plistutil makes no Uid of XML.
    "plistutil": Program(
        lambda value, path: run("plistutil", "-f", "bin", "-i", xml_of(value, path, lambda v: v.data)),
        lambda path: from_xml(run("plistutil", "-f", "xml", "-i", path)), True),
    "plser": Program(
        lambda value, path: plser(xml_of(value, path, lambda v: {"CF$UID": v.data}), "Binary"),
        lambda path: from_xml(plser(path, "XML")), False),
}

# ---- the files

# Scalars that all three programs support, those that plser doesn't, and those that only plistlib does.
SCALARS = [
    (["plistlib", "plistutil", "plser"], [
        False, True, *(sign * 2**n + d for n in range(63) for sign in (1, -1) for d in (-1, 0)),
        0.0, 1.5, 1 / 3, -2.25, 1e300, 5e-324, 1e22, float("inf"), float("-inf"),
        "", "a", "é", "€", "中文", "\ud7ff", 'tab\t lf\n "quotes" \\ <&>', " spaces ", "\x7f", "\\U00e9",
        *(letter * n for letter in "xж" for n in (14, 15, 255, 256, 70_000)),
        b"", b"\x00", b"\x00\xff", *(b"q" * n for n in (14, 15, 255, 256, 70_000)),
        EPOCH, *(datetime.datetime(year, 2, 28, 23, 59, 59)
                 for year in (1000, 1582, 1900, 1969, 2000, 2001, 2038, 9999)),
        *map(plistlib.UID, (0, 1, 255, 256, 65_535)),
    ]),
    (["plistlib", "plistutil"], [
        2**63, 2**64 - 1, "😀", "a😀b\U0010ffff", *map(plistlib.UID, (65_536, 2**32 - 1)),
    ]),
    (["plistlib"], [
        -0.0, float("nan"), "\x00", "\r", "\x01\x1f", "\ufffe", *map(plistlib.UID, (2**32, 2**64 - 1)),
        datetime.datetime(1, 1, 1), EPOCH - SECOND / 2, EPOCH + SECOND / 4,
        datetime.datetime(2020, 1, 1, 0, 0, 0, 1),
    ]),
]

# Objects that no writer here makes: short reals, numbers and lengths in more bytes than they need,
# Uids of three and five bytes, and a wide string of ASCII characters.
BY_HAND = [
    b"\x22\x3f\xc0\x00\x00", b"\x22\x3d\xcc\xcc\xcd", b"\x11\x00\x05", b"\x14" + (5).to_bytes(16, "big"),
    b"\x12\xff\xff\xff\xff", b"\x5f\x10\x02ab", b"\x5f\x13" + (2).to_bytes(8, "big") + b"ab",
    b"\x4f\x11\x00\x01\xfe", b"\x82\x00\x00\x05", b"\x84\x00\x00\x00\x00\x05", b"\x62\x00a\x00b",
]


def container(objects):
    """Returns a file with an array of these objects."""
    count = len(objects)
    objects = [b"\xaf\x10" + bytes([count, *range(1, count + 1)]), *objects]
    places = list(itertools.accumulate(map(len, objects), initial=8))
    table = b"".join(place.to_bytes(2, "big") for place in places[:-1])
    numbers = b"".join(number.to_bytes(8, "big") for number in (len(objects), 0, places[-1]))
    return b"bplist00" + b"".join(objects) + table + bytes(6) + b"\x02\x01" + numbers


def tree(rng, scalars, depth):
    if depth == 0 or rng.random() < 0.4:
        return rng.choice(scalars)
    children = [tree(rng, scalars, depth - 1) for _ in range(rng.choice((0, 1, 2, 5, 14, 15, 30)))]
    if rng.random() < 0.5:
        return children
    keys = [scalar for scalar in scalars if isinstance(scalar, str)]
    return {rng.choice(keys) + str(place % 20): child for place, child in enumerate(children)}


def values_of(rng, scalars, trees):
    """Returns all the scalars, long collections, and random trees."""
    yield scalars
    for length in (255, 256, 65_536):
        yield list(range(length))
        yield {f"key {number}": number for number in range(length)}
    short = [scalar for scalar in scalars if not isinstance(scalar, (str, bytes)) or len(scalar) < 300]
    for _ in range(trees):
        yield [tree(rng, short, 4) for _ in range(3)]


def files_of(names, folder, trees):
    """Yields the writer and the bytes of each file, and which programs can read it."""
    rng, scalars = random.Random(1), []
    for readers, more in SCALARS:
        scalars += more
        for value in values_of(rng, scalars, trees):
            for writer in readers:
                yield writer, PROGRAMS[writer].write(value, folder / "value.xml"), readers
    yield "hand", container(BY_HAND), ["plistlib", "plistutil"]
    for path in map(pathlib.Path, names):
        if path.read_bytes().startswith(b"bplist00"):
            yield "others", path.read_bytes(), PROGRAMS
        else:
            yield "plser of others", plser(path, "Binary"), PROGRAMS


# Strings that every writer quotes, since this library, unlike others, doesn't end a bare string at
# the end of a line.
PIECES = ["a b", " ", "é ü", "中 文", "tab\t lf\n \"q\" 'q' \\ <&>", "(x, y)", "{k = v;}", "// n", "/* n */"]


def text_tree(rng, depth):
    if depth == 0 or rng.random() < 0.4:
        return " ".join(rng.choices(PIECES, k=rng.choice((1, 2, 40))))
    children = [text_tree(rng, depth - 1) for _ in range(rng.choice((0, 1, 2, 5, 14, 15, 30)))]
    if rng.random() < 0.5:
        return children
    return {f"{rng.choice(PIECES)} {place}": child for place, child in enumerate(children)}


ESCAPES = {'"': r"\"", "\\": r"\\", "\n": r"\n", "\t": r"\t"}


def ascii_of(rng, value):
    """Returns an ASCII property list with random comments and blanks."""
    gap = rng.choice(("", " ", "\n", " // to the line's end\n", " /* a comment */ "))
    if isinstance(value, list):
        return gap + "(" + "".join(ascii_of(rng, item) + gap + "," for item in value) + gap + ")"
    if isinstance(value, dict):
        return gap + "{" + "".join(ascii_of(rng, key) + gap + "=" + ascii_of(rng, item) + gap + ";"
                                   for key, item in value.items()) + gap + "}"
    return gap + '"' + "".join(ESCAPES.get(letter, letter) for letter in value) + '"'


def ascii_files_of(folder, trees):
    """Yields the writer, the bytes and the value of each ASCII file."""
    rng = random.Random(2)
    for _ in range(trees):
        value = [text_tree(rng, 4) for _ in range(3)]
        yield "hand (ASCII)", ascii_of(rng, value).encode(), value
        yield "plser (ASCII)", plser(xml_of(value, folder / "value.xml", None), "OpenStep"), value


# ---- the comparison

def difference(ours, theirs, keeps_order):
    if not keeps_order:
        ours, theirs = sorted_by_key(ours), sorted_by_key(theirs)
    for number, (our, their) in enumerate(itertools.zip_longest(ours, theirs), start=1):
        if our != their:
            return f"line {number}: {our} for {their}"
    return None


def main(words):
    counts, trees = collections.Counter(), TREES_OF_A_KIND
    if words[:1] == ["--trees"]:
        trees, words = int(words[1]), words[2:]
    subprocess.run([PLIST_TOOL], capture_output=True)

    def note(number, writer, reader, action, found):
        counts[action, writer, reader, "DIFFER" if found else "are the same"] += 1
        if found:
            print(f"{action} of file {number} by {writer}, read by {reader}: {found[:300]}")

    with tempfile.TemporaryDirectory() as folder:
        path = pathlib.Path(folder) / "file.plist"
        for number, (writer, content, readers) in enumerate(files_of(words, path.parent, trees)):
            path.write_bytes(content)
            ours, made = printed(path), converted(path)
            for name in readers:
                reader = PROGRAMS[name]
                theirs = lines_of(reader.read(path))
                note(number, writer, name, "print", difference(ours, theirs, reader.keeps_order))
                again = lines_of(reader.read(made))
                note(number, writer, name, "convert", difference(again, theirs, reader.keeps_order))
        for number, (writer, content, value) in enumerate(ascii_files_of(path.parent, trees)):
            path.write_bytes(content)
            made = converted(path)
            theirs = lines_of(from_xml(plser(path, "XML")))
            note(number, writer, "plser", "reading", difference(lines_of(value), theirs, False))
            for name, reader in PROGRAMS.items():
                again = lines_of(reader.read(made))
                note(number, writer, name, "convert", difference(again, theirs, False))
    for (action, writer, reader, outcome), count in sorted(counts.items()):
        print(f"{action}, written by {writer}, read by {reader}: {count} {outcome}")
    return 1 if any(outcome == "DIFFER" for *_, outcome in counts) else 0


if __name__ == "__main__":
    sys.exit(main(sys.argv[1:]))
