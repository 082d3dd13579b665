"""What is read: values, faults, limits, buffers, and files that nest deep."""
import array as arrays
import datetime
import io
import math
import mmap
import pathlib
import pickle
import plistlib
import random
import struct
import sys
import tempfile
import threading
import time
import unittest

import sizhetom
from lists import array, dictionaries, dictionary, file_of, in_thread, levels, repeated, string

NO_LIMITS = {"max_depth": None, "max_events": None, "max_bytes": None}
SCALARS = [
    ("false", "08", False),
    ("true", "09", True),
    ("an integer of 1 byte", "10ff", 255),
    ("an integer of 2 bytes", "11fffe", 0xFFFE),
    ("an integer of 4 bytes", "12fffffffe", 0xFFFFFFFE),
    ("an integer of 8 bytes", "137fffffffffffffff", 2**63 - 1),
    ("a negative integer", "138000000000000000", -2**63),
    ("minus one", "13ffffffffffffffff", -1),
    ("an integer of 16 bytes", "140000000000000000ffffffffffffffff", 2**64 - 1),
    ("a real of 4 bytes", "223fc00000", 1.5),
    ("a real of 8 bytes", "233fb999999999999a", 0.1),
    ("an infinite real", "23fff0000000000000", -math.inf),
    ("the start of 2001", "330000000000000000", datetime.datetime(2001, 1, 1)),
    ("half a second", "333fe0000000000000", datetime.datetime(2001, 1, 1, 0, 0, 0, 500000)),
    ("a date before 2001", "33bff0000000000000", datetime.datetime(2000, 12, 31, 23, 59, 59)),
    ("empty data", "40", b""),
    ("data", "4300ff80", b"\x00\xff\x80"),
    ("an empty string", "50", ""),
    ("a string", "526162", "ab"),
    ("a string in UTF-16", "6100e9", "\xe9"),
    ("a pair of surrogates", "62d83dde00", "\U0001f600"),
    ("a Uid of 1 byte", "8005", plistlib.UID(5)),
    ("a Uid of 8 bytes", "87ffffffffffffffff", plistlib.UID(2**64 - 1)),
]
FAULTS = [
    ("no input", b"", "UnexpectedEndOfEventStream", None, ""),
    ("only the magic", b"bplist00", "UnexpectedEof", 8, ""),
    ("a width of 0", b"bplist00" + bytes(32), "InvalidTrailerObjectOffsetSize", 8, ""),
    ("a reference width of 0", file_of(b"\x08", reference=0), "InvalidTrailerObjectReferenceSize", 10, ""),
    ("an array in itself", file_of(array(0)), "RecursiveObject", 8, ""),
    ("a null", file_of(b"\0"), "NullObjectUnimplemented", 8, ""),
    ("a fill byte", file_of(b"\x0f"), "FillObjectUnimplemented", 8, ""),
    ("an unknown marker", file_of(b"\x88"), "UnknownObjectType", 8, "(136)"),
    ("an unknown marker in an array", file_of(array(1), b"\x70"), "UnknownObjectType", 10, "(112)"),
    ("a reference to no object", file_of(array(7)), "ObjectReferenceTooLarge", 8, ""),
    ("a string beyond the table", file_of(b"\x5e"), "ObjectOffsetTooLarge", 8, ""),
    ("an integer of 65 bits", file_of(b"\x14" + (2**64).to_bytes(16, "big")), "IntegerOutOfRange", 8, ""),
    ("a date that is no number", file_of(b"\x33\x7f\xf8" + bytes(6)), "OverflowOrNanDate", 8, ""),
    ("a string that isn't UTF-8", file_of(b"\x51\xff"), "InvalidUtf8String", 8, ""),
    ("half a pair of surrogates", file_of(b"\x61\xd8\x00"), "InvalidUtf16String", 8, ""),
    ("a key that is an integer", file_of(dictionary((1, 1)), b"\x10\x01"), "UnexpectedEventType", None,
     " { expected: DictionaryKeyOrEndCollection, found: Integer }"),
    ("an end", b")", "UnexpectedEventType", None, " { expected: ValueOrStartCollection, found: EndCollection }"),
    ("two roots", b"a (b)", "ExpectedEndOfEventStream", None, " { found: StartArray }"),
    ("an open array", b"(a", "UnexpectedEndOfEventStream", None, ""),
    ("a string without its quote", b'"ab', "UnclosedString", 3, ""),
    ("a comment without its end", b"/* ab", "IncompleteComment", 5, ""),
    ("XML", b"<plist/>", "XmlUnsupported", 0, ""),
]


def seconds(number):
    """Returns the file of a date."""
    return file_of(b"\x33" + struct.pack(">d", number))


def fault_of(function, *words, **limits):
    """Returns the error that a call raises."""
    try:
        function(*words, **limits)
    except sizhetom.PlistError as error:
        return error
    raise AssertionError("no error was raised")


def depth_of(value):
    """Returns how many lists or dictionaries with at most one item are nested in each other."""
    depth = 0
    while isinstance(value, (list, dict)):
        depth += 1
        value = value[0] if isinstance(value, list) and value else value.get("key") if value else None
    return depth


class Values(unittest.TestCase):
    def test_scalars(self):
        for name, content, expected in SCALARS:
            with self.subTest(name):
                value = sizhetom.loads(file_of(bytes.fromhex(content)))
                self.assertEqual(value, expected)
                self.assertIs(type(value), type(expected))

    def test_a_real_that_is_no_number(self):
        self.assertTrue(math.isnan(sizhetom.loads(file_of(bytes.fromhex("237ff8000000000000")))))

    def test_collections(self):
        data = file_of(dictionary((1, 3), (2, 4)), string("b"), string("a"), array(5, 5), dictionary(), array())
        value = sizhetom.loads(data)
        self.assertEqual(value, {"b": [[], []], "a": {}})
        self.assertEqual(list(value), ["b", "a"])
        self.assertIsNot(value["b"][0], value["b"][1])

    def test_a_key_twice_has_its_first_position_and_its_last_value(self):
        data = file_of(dictionary((1, 3), (2, 4), (1, 4)), string("a"), string("b"), b"\x08", b"\x09")
        self.assertEqual(list(sizhetom.loads(data).items()), [("a", True), ("b", True)])

    def test_ascii(self):
        data = b'// settings\n{ Name = "Example settings"; Sizes = ( 1, -2, x ); "\\U00e9" = {}; }'
        expected = {"Name": "Example settings", "Sizes": [1, -2, "x"], "\xe9": {}}
        self.assertEqual(sizhetom.loads(data), expected)

    def test_many_strings(self):
        texts = [f"{prefix}{number}" for number in range(9000) for prefix in ("", "a longer text \xe9 ")]
        data = plistlib.dumps(texts + texts, fmt=plistlib.FMT_BINARY)
        self.assertEqual(sizhetom.loads(data), texts + texts)

    def test_load(self):
        data = file_of(array(1), string("a"))
        self.assertEqual(sizhetom.load(io.BytesIO(data)), ["a"])
        self.assertRaises(sizhetom.PlistError, sizhetom.load, io.BytesIO(data), max_depth=0)
        self.assertRaises(TypeError, sizhetom.load, io.StringIO("a"))


class Dates(unittest.TestCase):
    # The starts of the years 1 and 10000.
    FIRST, END = -63113904000.0, 252423993600.0

    def expected(self, number):
        try:
            return datetime.datetime(2001, 1, 1) + datetime.timedelta(seconds=number)
        except OverflowError:
            return None

    def same(self, number):
        expected = self.expected(number)
        if expected is None:
            # The library has dates of the years -9999 to 9999.
            text = "YearOutOfRange" if number < self.END else "OverflowOrNanDate (offset 8)"
            self.assertEqual(str(fault_of(sizhetom.loads, seconds(number))), text, number)
        else:
            self.assertEqual(sizhetom.loads(seconds(number)), expected, number)

    def test_the_first_and_the_last_year(self):
        self.assertEqual(sizhetom.loads(seconds(self.FIRST)), datetime.datetime.min)
        for near in (self.FIRST, self.END):
            below = above = near
            for _ in range(40):
                below, above = math.nextafter(below, -math.inf), math.nextafter(above, math.inf)
                self.same(below)
                self.same(above)

    def test_each_day_of_some_years(self):
        for year in (1, 4, 100, 400, 1900, 2000, 2001, 2004, 9999):
            start = (datetime.datetime(year, 1, 1) - datetime.datetime(2001, 1, 1)).total_seconds()
            for day in range(365):
                self.same(start + 86400 * day)

    def test_as_timedelta_rounds(self):
        chosen = random.Random(1)
        for _ in range(20000):
            self.same(chosen.uniform(-7e10, 2.6e11) * 10 ** -chosen.randrange(15))
        for number in range(-4000, 4000):
            self.same(number / 8e6)


class Faults(unittest.TestCase):
    def test_faults(self):
        for name, data, kind, offset, details in FAULTS:
            with self.subTest(name):
                error = fault_of(sizhetom.loads, data)
                self.assertEqual((error.kind, error.offset), (kind, offset))
                where = "" if offset is None else f" (offset {offset})"
                self.assertEqual(str(error), kind + details + where)

    def test_an_error_is_a_value_error_that_can_be_pickled(self):
        error = fault_of(sizhetom.loads, file_of(b"\x88"))
        self.assertIsInstance(error, ValueError)
        copy = pickle.loads(pickle.dumps(error))
        self.assertEqual((copy.kind, copy.offset, str(copy)), ("UnknownObjectType", 8, str(error)))


class Limits(unittest.TestCase):
    def limited(self, data, **limits):
        """Asserts that the limit suffices, and that one less doesn't."""
        sizhetom.loads(data, **limits)
        (name, limit), = limits.items()
        error = fault_of(sizhetom.loads, data, **{name: limit - 1})
        self.assertEqual((error.kind, error.offset), ("LimitReached", None))
        return str(error)

    def test_each_limit(self):
        data = file_of(array(1, 2, 2), array(2), string("ab"))
        self.assertEqual(self.limited(data, max_depth=2), "LimitReached(Depth)")
        self.assertEqual(self.limited(data, max_events=7), "LimitReached(Items)")
        self.assertEqual(self.limited(data, max_bytes=6), "LimitReached(Bytes)")

    def test_the_events_are_tested_before_the_depth_and_that_before_the_bytes(self):
        nested, two = file_of(array(1), array()), file_of(array(1), string("ab"))
        self.assertEqual(str(fault_of(sizhetom.loads, nested, max_events=1, max_depth=1)), "LimitReached(Items)")
        self.assertEqual(str(fault_of(sizhetom.loads, two, max_events=1, max_bytes=1)), "LimitReached(Items)")
        self.assertEqual(str(fault_of(sizhetom.loads, two, max_depth=0, max_bytes=1)), "LimitReached(Depth)")

    def test_the_defaults(self):
        self.assertEqual(depth_of(sizhetom.loads(levels(64))), 64)
        self.assertEqual(str(fault_of(sizhetom.loads, levels(65))), "LimitReached(Depth)")
        self.assertEqual(len(sizhetom.loads(repeated(b"\x09", 999_998))), 999_998)
        self.assertEqual(str(fault_of(sizhetom.loads, repeated(b"\x09", 999_999))), "LimitReached(Items)")
        data = b"\x4f\x12" + (1 << 14).to_bytes(4, "big") + bytes(1 << 14)
        self.assertEqual(len(sizhetom.loads(repeated(data, 1 << 10))), 1 << 10)
        self.assertEqual(str(fault_of(sizhetom.loads, repeated(data, 1 + (1 << 10)))), "LimitReached(Bytes)")

    def test_the_defaults_of_the_other_calls(self):
        self.assertEqual(str(fault_of(sizhetom.load, io.BytesIO(levels(65)))), "LimitReached(Depth)")
        self.assertEqual(str(fault_of(list, sizhetom.events(levels(65)))), "LimitReached(Depth)")

    def test_none_means_no_limit(self):
        long = b"\x4f\x12" + (1 << 20).to_bytes(4, "big") + bytes(1 << 20)
        self.assertEqual(len(sizhetom.loads(repeated(long, 17), max_bytes=None)), 17)
        self.assertEqual(len(sizhetom.loads(repeated(b"\x09", 10**6), max_events=None)), 10**6)
        self.assertEqual(depth_of(sizhetom.loads(levels(65), max_depth=None)), 65)

    def test_limits_that_are_none_or_not_negative_integers(self):
        data = file_of(array())
        for name in ("max_depth", "max_events", "max_bytes"):
            self.assertEqual(sizhetom.loads(data, **{name: 10**30}), [])
            for wrong in (-1, -10**30):
                self.assertRaises(ValueError, sizhetom.loads, data, **{name: wrong})
            for wrong in (1.0, "1"):
                self.assertRaises(TypeError, sizhetom.loads, data, **{name: wrong})

    def test_memory_that_has_to_grow(self):
        for times in (1, 100, 10_000, 300_000):
            value = sizhetom.loads(repeated(string("a string of some length"), times))
            self.assertEqual(value, ["a string of some length"] * times)


class Buffers(unittest.TestCase):
    def test_each_kind_of_buffer(self):
        data = file_of(array(1, 2), string("ab"), b"\x42\x01\x02")
        buffers = [bytearray(data), memoryview(data), memoryview(b"x" + data)[1:], arrays.array("B", data)]
        for buffer in buffers:
            self.assertEqual(sizhetom.loads(buffer), ["ab", b"\x01\x02"])
            self.assertEqual(len(list(sizhetom.events(buffer))), 4)
        buffers[0].clear()

    def test_a_mapped_file(self):
        with tempfile.TemporaryFile() as file:
            file.write(file_of(array(1), string("ab")))
            file.flush()
            with mmap.mmap(file.fileno(), 0, access=mmap.ACCESS_READ) as mapped:
                self.assertEqual(sizhetom.loads(mapped), ["ab"])

    def test_what_is_no_buffer(self):
        for wrong in ("bplist00", None, 5, [1]):
            self.assertRaises(TypeError, sizhetom.loads, wrong)
            self.assertRaises(TypeError, sizhetom.events, wrong)
        self.assertRaises(BufferError, sizhetom.loads, memoryview(bytes(80))[::2])


class Events(unittest.TestCase):
    def test_each_kind(self):
        data = file_of(array(1, 3, 4, 5, 6, 7, 8, 9), dictionary((2, 3)), string("k"), b"\x09", b"\x41\xff",
                       bytes.fromhex("333fe0000000000000"), b"\x10\x05", bytes.fromhex("223fc00000"),
                       bytes.fromhex("233fb999999999999a"), b"\x80\x04")
        self.assertEqual([tuple(event) for event in sizhetom.events(data)], [
            ("StartArray", 8, None), ("StartDictionary", 1, None), ("String", "k", None),
            ("Boolean", True, None), ("EndCollection", None, None), ("Boolean", True, None),
            ("Data", b"\xff", None),
            ("Date", datetime.datetime(2001, 1, 1, 0, 0, 0, 500000), bytes.fromhex("3fe0000000000000")),
            ("Integer", 5, None), ("Real", 1.5, bytes.fromhex("3fc00000")),
            ("Real", 0.1, bytes.fromhex("3fb999999999999a")), ("Uid", plistlib.UID(4), None),
            ("EndCollection", None, None)])

    def test_the_fields_have_names(self):
        event = next(sizhetom.events(file_of(b"\x10\x05")))
        self.assertIsInstance(event, sizhetom.Event)
        self.assertEqual((event.kind, event.value, event.bits), ("Integer", 5, None))
        self.assertEqual(pickle.loads(pickle.dumps(event)), event)

    def test_the_iterator_is_made_by_events_alone(self):
        events = sizhetom.events(b"a")
        self.assertIs(iter(events), events)
        self.assertRaises(TypeError, type(events))

    def test_a_date_whose_year_datetime_lacks(self):
        event = next(sizhetom.events(seconds(-1e11)))
        self.assertEqual(tuple(event), ("Date", None, struct.pack(">d", -1e11)))

    def test_an_ascii_file_of_more_than_one_value(self):
        events = sizhetom.events(b"(a) b }")
        self.assertEqual([(event.kind, event.value) for event in events], [
            ("StartArray", None), ("String", "a"), ("EndCollection", None), ("String", "b"),
            ("EndCollection", None)])

    def test_a_fault_follows_the_events_before_it(self):
        events = sizhetom.events(file_of(array(1, 2), b"\x09", b"\x88"))
        self.assertEqual([next(events).kind, next(events).kind], ["StartArray", "Boolean"])
        self.assertEqual(str(fault_of(next, events)), "UnknownObjectType(136) (offset 12)")
        self.assertEqual(list(events), [])

    def test_limits(self):
        events = sizhetom.events(file_of(array(1, 1), b"\x09"), max_events=2)
        self.assertEqual([next(events).kind, next(events).kind], ["StartArray", "Boolean"])
        self.assertEqual(str(fault_of(next, events)), "LimitReached(Items)")


class Deep(unittest.TestCase):
    COUNT = 1_000_000

    def test_a_million_levels(self):
        for shape in (levels, dictionaries):
            data = shape(self.COUNT)
            self.assertEqual(depth_of(sizhetom.loads(data, **NO_LIMITS)), self.COUNT)
            self.assertEqual(str(fault_of(sizhetom.loads, data)), "LimitReached(Depth)")

    def test_a_small_call_stack(self):
        data = levels(self.COUNT)
        self.assertEqual(in_thread(lambda: depth_of(sizhetom.loads(data, **NO_LIMITS)), 1 << 19), self.COUNT)

    def test_arrays_that_refer_to_the_next_one_twice(self):
        doubling = [array(number, number) for number in range(1, 42)]
        data = file_of(*doubling, array())
        self.assertEqual(str(fault_of(sizhetom.loads, data)), "LimitReached(Items)")


class Threads(unittest.TestCase):
    def test_other_threads_run_during_a_call(self):
        data, blocked, ran = repeated(string("a string"), 2_000_000), threading.Lock(), []

        def wait():
            with blocked:
                ran.append(time.perf_counter())

        interval = sys.getswitchinterval()
        blocked.acquire()
        other = threading.Thread(target=wait)
        other.start()
        # Then a thread only runs when another one releases the interpreter's lock by itself.
        sys.setswitchinterval(1000)
        try:
            start = time.perf_counter()
            blocked.release()
            sizhetom.events(data, **NO_LIMITS)
            end = time.perf_counter()
        finally:
            sys.setswitchinterval(interval)
        other.join()
        self.assertTrue(start < ran[0] < end)

    def test_calls_at_once(self):
        files = [(number, file_of(array(*[1] * 200), string(f"number {number}"))) for number in range(8)]
        wrong = []

        def read(number, data):
            for _ in range(200):
                if sizhetom.loads(data) != [f"number {number}"] * 200:
                    wrong.append(number)

        threads = [threading.Thread(target=read, args=file) for file in files]
        for thread in threads:
            thread.start()
        for thread in threads:
            thread.join()
        self.assertEqual(wrong, [])


class Example(unittest.TestCase):
    def test_the_readme_of_the_repository(self):
        path = pathlib.Path(__file__).resolve().parents[3] / "examples/settings.plist"
        with open(path, "rb") as file:
            self.assertEqual(sizhetom.load(file)["Version"], 3)


if __name__ == "__main__":
    unittest.main()
