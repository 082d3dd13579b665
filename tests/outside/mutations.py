"""Property lists for tests: files that other programs made, mutations of them, and ASCII texts.

Each choice is made by a `random.Random`, so the same seed gives the same files.
"""
import datetime
import plistlib
import shutil
import subprocess

PIECES = [b"(", b")", b"{", b"}", b"=", b";", b",", b" ", b"\n", b"\t", b"\r", b"'", b'"', b"\\", b"/", b"*",
          b"//", b"/*", b"*/", b"a", b"key", b"0x", b"0x1F", b"12", b"-5", b"+7", b"18446744073709551615",
          b"18446744073709551616", b"\\n", b"\\U", b"\\U00e9", b"\\UD83D", b"\\UDCA9", b"\\u1234", b"\\200",
          b"\\377", b"\\4", b"\\477", b"\\8", b"\xc3\xa9", b"\xe2\x82\xac", b"\xff", b"\x00", b"<", b"<00ff>",
          b"\xef\xbb\xbf", b'"text"', b"'other'", b"key = value;", b"{ a = 1; }", b"(1, 2)", b"bplist00"]


# ---- files to begin with

def some_value(chance, depth=0):
    kind = chance.randrange(9 if depth < 3 else 7)
    if kind == 0:
        return chance.random() < 0.5
    if kind == 1:
        return chance.choice([0, 5, 255, 256, 65536, -1, 1 << 32, (1 << 64) - 1, -(1 << 63)])
    if kind == 2:
        return chance.choice([0.0, 1.5, -2.25, 1e300])
    if kind == 3:
        return chance.choice(["", "a", "b", "text", "é", "\U0001F4A9", "x" * 20])
    if kind == 4:
        return bytes(chance.randrange(256) for _ in range(chance.choice([0, 1, 8, 9, 20])))
    if kind == 5:
        return datetime.datetime(2001, 1, 1) + datetime.timedelta(seconds=chance.randrange(-10 ** 9, 10 ** 9))
    if kind == 6:
        return plistlib.UID(chance.choice([0, 1, 255, 256, 1 << 40]))
    below = [some_value(chance, depth + 1) for _ in range(chance.randrange(5))]
    return below if kind == 7 else {chance.choice("abcdef") + str(i): value for i, value in enumerate(below)}


def some_tree(chance):
    """Returns a random value, in most cases a collection."""
    if chance.random() < 0.2:
        return some_value(chance)
    below = [some_value(chance, 1) for _ in range(chance.randrange(1, 6))]
    return below if chance.random() < 0.5 else {f"key {i}": value for i, value in enumerate(below)}


def without_uids(value):
    """Returns the value with its Uids in the form that XML has for them."""
    if isinstance(value, plistlib.UID):
        return {"CF$UID": value.data}
    if isinstance(value, list):
        return [without_uids(one) for one in value]
    return {key: without_uids(one) for key, one in value.items()} if isinstance(value, dict) else value


def others_of(xml):
    """Returns the command of each program that converts an XML property list to standard output."""
    yield ["plistutil", "-i", xml, "-f", "bin"]
    for form in ("NSPropertyListBinaryFormat_v1_0", "NSPropertyListOpenStepFormat"):
        yield ["plser", "-Format", form, xml]


def from_others(chance, folder):
    """Yields the files that plistlib and the other installed programs write for a value."""
    value = some_tree(chance)
    yield plistlib.dumps(value, fmt=plistlib.FMT_BINARY, sort_keys=False)
    xml = folder / "value.xml"
    xml.write_bytes(plistlib.dumps(without_uids(value), sort_keys=False))
    for words in others_of(xml):
        if shutil.which(words[0]):
            made = subprocess.run(words, capture_output=True)
            if made.returncode == 0 and made.stdout:
                yield made.stdout


def archive_of(objects, root):
    """Returns a keyed archive of these objects, with the Uid of its root."""
    top = {"$archiver": "NSKeyedArchiver", "$version": 100000, "$objects": objects,
           "$top": {"root": plistlib.UID(root)}}
    return plistlib.dumps(top, fmt=plistlib.FMT_BINARY, sort_keys=False)


# ---- mutations

def mutated(chance, data):
    data = bytearray(data)
    for _ in range(chance.choice([1, 1, 1, 2, 3, 5])):
        if not data:
            break
        at = chance.randrange(len(data))
        kind = chance.randrange(8)
        if kind == 0:
            data[at] ^= 1 << chance.randrange(8)
        elif kind == 1:
            data[at] = chance.choice([0, 1, 2, 3, 8, 9, 15, 0x13, 0x33, 0x4F, 0x5F, 0x6F, 0x80, 0xA1, 0xD1, 0xFF])
        elif kind == 2:
            data[at] = chance.randrange(256)
        elif kind == 3:
            del data[at:at + chance.choice([1, 1, 2, 8])]
        elif kind == 4:
            data[at:at] = bytes(chance.randrange(256) for _ in range(chance.choice([1, 1, 2, 8])))
        elif kind == 5:
            other = chance.randrange(len(data))
            data[at], data[other] = data[other], data[at]
        elif kind == 6 and len(data) >= 32:
            data[len(data) - chance.randrange(1, 27)] = chance.choice([0, 1, 2, 3, 4, 5, 8, 9, 40, 255])
        else:
            size = chance.randrange(1, 9)
            other = chance.randrange(len(data))
            data[at:at + size] = data[other:other + size]
    return bytes(data)


def some_file(chance, pool):
    if chance.random() < 0.4:
        return b"".join(chance.choice(PIECES) for _ in range(chance.randrange(14)))
    data = chance.choice(pool)
    return data if chance.random() < 0.02 else mutated(chance, data)
