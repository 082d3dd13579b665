"""Values made at random, which plistlib reads and writes in the same way."""
import datetime
import plistlib
import random
import struct
import unittest

import sizhetom

NO_LIMITS = {"max_depth": None, "max_events": None, "max_bytes": None}
EDGES = [0, 1, 255, 256, 65535, 65536, 2**32 - 1, 2**32, 2**63 - 1, 2**63, 2**64 - 1, -1, -2**63]
LETTERS = "ab \x00\x7f\x80\xff\u0100\ud7ff\ue000\uffff\U00010000\U0010ffff"


def some_text(chosen):
    if chosen.random() < 0.5:
        return f"key {chosen.randrange(50)}"
    return "".join(chosen.choices(LETTERS, k=chosen.choice((0, 1, 2, 14, 15, 16, 70, 300))))


def some_date(chosen):
    """Returns a date that a double represents: one of a 64th of a second, or one near 2001."""
    if chosen.random() < 0.5:
        distance = chosen.randrange(-2 * 10**15, 2 * 10**15)
        return datetime.datetime(2001, 1, 1) + datetime.timedelta(microseconds=distance)
    most = (datetime.datetime.max - datetime.datetime.min) // datetime.timedelta(seconds=1)
    seconds = datetime.timedelta(seconds=chosen.randrange(most), microseconds=15625 * chosen.randrange(64))
    return datetime.datetime.min + seconds


def some_scalar(chosen):
    return chosen.choice((
        lambda: some_text(chosen),
        lambda: chosen.randbytes(chosen.choice((0, 1, 14, 15, 255, 256))),
        lambda: chosen.random() < 0.5,
        lambda: chosen.choice(EDGES),
        lambda: chosen.randrange(-2**63, 2**64) >> chosen.randrange(64),
        lambda: struct.unpack(">d", chosen.randbytes(8))[0],
        lambda: chosen.uniform(-1e6, 1e6),
        lambda: some_date(chosen),
        lambda: plistlib.UID(chosen.getrandbits(64) >> chosen.randrange(64)),
    ))()


def some_value(chosen, depth):
    if depth == 0 or chosen.random() < 0.3:
        return some_scalar(chosen)
    items = [some_value(chosen, depth - 1) for _ in range(chosen.choice((0, 1, 2, 3, 4, 16)))]
    if chosen.random() < 0.5:
        return items
    return {some_text(chosen): item for item in items}


def told(value):
    """Returns a description by which values are equal only if their types, orders and bits are."""
    if isinstance(value, float):
        return struct.pack(">d", value)
    if isinstance(value, list):
        return [told(item) for item in value]
    if isinstance(value, dict):
        return [dict, *((key, told(item)) for key, item in value.items())]
    return type(value), value


def some_values(count):
    chosen = random.Random(1)
    for _ in range(count):
        yield some_value(chosen, 3)


class RoundTrips(unittest.TestCase):
    COUNT = 1000

    def test_plistlib_reads_what_is_written(self):
        for value in some_values(self.COUNT):
            for share in (False, True):
                self.assertEqual(told(plistlib.loads(sizhetom.dumps(value, share=share))), told(value))

    def test_what_plistlib_writes_is_read(self):
        for value in some_values(self.COUNT):
            data = plistlib.dumps(value, fmt=plistlib.FMT_BINARY, sort_keys=False)
            self.assertEqual(told(sizhetom.loads(data, **NO_LIMITS)), told(value))

    def test_what_is_written_is_read(self):
        for value in some_values(self.COUNT):
            data = sizhetom.dumps(value)
            self.assertEqual(told(sizhetom.loads(data, **NO_LIMITS)), told(value))
            self.assertEqual(sizhetom.dumps(sizhetom.loads(data, **NO_LIMITS)), data)


class Mutations(unittest.TestCase):
    """Files in which some bytes were changed: what is read is what plistlib reads, if both read it."""

    COUNT = 20_000

    def test_changed_files(self):
        chosen, read = random.Random(2), 0
        files = [plistlib.dumps(value, fmt=plistlib.FMT_BINARY, sort_keys=False) for value in some_values(200)]
        for _ in range(self.COUNT):
            data = bytearray(chosen.choice(files))
            for _ in range(chosen.choice((1, 1, 1, 2, 5))):
                data[chosen.randrange(8, len(data))] = chosen.choice((0, 1, 0x7f, 0x80, 0xff, chosen.randrange(256)))
            read += self.same(bytes(data))
        self.assertGreater(read, self.COUNT // 10)

    def same(self, data):
        """Reads a file, and returns whether both read it."""
        try:
            value = sizhetom.loads(data)
        except sizhetom.PlistError:
            return False
        try:
            expected = plistlib.loads(data, fmt=plistlib.FMT_BINARY)
        except (plistlib.InvalidFileException, UnicodeDecodeError, RecursionError):
            return False
        self.assertEqual(told(value), told(expected), data)
        return True


if __name__ == "__main__":
    unittest.main()
