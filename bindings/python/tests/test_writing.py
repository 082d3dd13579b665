"""What is written, and which values are refused."""
import collections
import datetime
import enum
import io
import plistlib
import unittest

import sizhetom
from lists import in_thread

EPOCH = datetime.datetime(2001, 1, 1)
# The bytes of objects, each in the smallest form that fits.
FORMS = [
    ("false", False, "08"),
    ("true", True, "09"),
    ("zero", 0, "1000"),
    ("one byte", 255, "10ff"),
    ("two bytes", 256, "110100"),
    ("four bytes", 65536, "1200010000"),
    ("eight bytes", 2**32, "130000000100000000"),
    ("a negative integer", -1, "13ffffffffffffffff"),
    ("the least integer", -2**63, "138000000000000000"),
    ("sixteen bytes", 2**63, "140000000000000000" "8000000000000000"),
    ("the greatest integer", 2**64 - 1, "140000000000000000" "ffffffffffffffff"),
    ("a float", 1.5, "233ff8000000000000"),
    ("a date", EPOCH + datetime.timedelta(seconds=1), "333ff0000000000000"),
    ("a date before 2001", EPOCH - datetime.timedelta(microseconds=500000), "33bfe0000000000000"),
    ("bytes", b"\x01\x02", "420102"),
    ("no bytes", b"", "40"),
    ("a bytearray", bytearray(b"\x01"), "4101"),
    ("fifteen bytes", bytes(15), "4f100f" + "00" * 15),
    ("a string", "ab", "526162"),
    ("no character", "", "50"),
    ("a string beyond ASCII", "\xe9\U0001f600", "6300e9d83dde00"),
    ("a Uid", plistlib.UID(5), "8005"),
    ("a large Uid", plistlib.UID(2**64 - 1), "87ffffffffffffffff"),
    ("an empty list", [], "a0"),
    ("an empty tuple", (), "a0"),
    ("an empty dictionary", {}, "d0"),
]


class Colour(enum.IntEnum):
    RED = 300


class Name(str):
    """A subclass of str."""


Point = collections.namedtuple("Point", "x y")


def file_of_scalar(content):
    """Returns the file of one object."""
    numbers = (1, 0, 8 + len(content))
    return b"bplist00" + content + b"\x08" + bytes([0] * 6 + [1, 1]) + b"".join(n.to_bytes(8, "big") for n in numbers)


def objects_in(data):
    """Returns how many objects a file has."""
    return int.from_bytes(data[-24:-16], "big")


class Files(unittest.TestCase):
    def test_the_form_of_each_value(self):
        for name, value, content in FORMS:
            with self.subTest(name):
                self.assertEqual(sizhetom.dumps(value), file_of_scalar(bytes.fromhex(content)))

    def test_nested_lists(self):
        objects = bytes.fromhex("a20102a10351785179")
        trailer = bytes([0] * 6 + [1, 1]) + b"".join(number.to_bytes(8, "big") for number in (4, 0, 17))
        expected = b"bplist00" + objects + bytes.fromhex("080b0f0d") + trailer
        self.assertEqual(sizhetom.dumps([["x"], "y"]), expected)

    def test_equal_scalars_are_stored_once(self):
        data = sizhetom.dumps(["a", "a", 1, 1, b"a", 1.0, True, {"a": 1}])
        self.assertEqual(objects_in(data), 7)

    def test_sharing(self):
        value = [[1, 2], [1, 2], {"a": []}, {"a": []}]
        self.assertEqual(objects_in(sizhetom.dumps(value)), 10)
        shared = sizhetom.dumps(value, share=True)
        self.assertEqual(objects_in(shared), 7)
        self.assertEqual(sizhetom.loads(shared), value)

    def test_the_order_of_keys(self):
        value = {"b": 1, "a": 2, "c": 3}
        self.assertEqual(list(plistlib.loads(sizhetom.dumps(value))), ["b", "a", "c"])

    def test_dump(self):
        file = io.BytesIO()
        sizhetom.dump([1, 1.0], file)
        self.assertEqual(file.getvalue(), sizhetom.dumps([1, 1.0]))
        sizhetom.dump([[], []], file, share=True)
        self.assertTrue(file.getvalue().endswith(sizhetom.dumps([[], []], share=True)))
        self.assertRaises(TypeError, sizhetom.dump, [], io.StringIO())

    def test_strings_that_are_longer_in_utf16(self):
        value = ["a" * 1000 + "\xe9" + str(number) for number in range(500)]
        self.assertEqual(plistlib.loads(sizhetom.dumps(value)), value)


class Types(unittest.TestCase):
    def written(self, value):
        return plistlib.loads(sizhetom.dumps(value))

    def test_subclasses(self):
        ordered = collections.OrderedDict(a=1, b=2, c=3)
        ordered.move_to_end("a")
        self.assertEqual(list(self.written(ordered).items()), [("b", 2), ("c", 3), ("a", 1)])
        self.assertEqual(self.written(collections.defaultdict(list, a=[1])), {"a": [1]})
        self.assertEqual(self.written([Colour.RED, Name("n"), Point(1, 2)]), [300, "n", [1, 2]])
        self.assertEqual(self.written({Name("k"): True}), {"k": True})

    def test_tuples(self):
        self.assertEqual(self.written((1, ("a", ()))), [1, ["a", []]])

    def test_values_that_have_no_form(self):
        for wrong in (None, object(), {1}, 1j, datetime.date(2001, 1, 1), memoryview(b"a"), range(3), Name):
            for value in (wrong, [wrong], {"a": wrong}, [1, [wrong]]):
                self.assertRaises(TypeError, sizhetom.dumps, value)

    def test_keys_that_are_no_strings(self):
        for key in (1, None, b"a", True, (), 1.0):
            self.assertRaises(TypeError, sizhetom.dumps, {key: 1})
            self.assertRaises(TypeError, sizhetom.dumps, [{"a": 1, key: 1}])
            self.assertRaises(TypeError, sizhetom.dumps, collections.OrderedDict([(key, 1)]))

    def test_integers_out_of_range(self):
        for number in (2**64, -2**63 - 1, 10**100, -10**100):
            self.assertRaises(OverflowError, sizhetom.dumps, number)
            self.assertRaises(OverflowError, sizhetom.dumps, {"a": [number]})

    def test_uids_that_were_changed(self):
        for data, error in ((-1, ValueError), (-2**70, ValueError), (2**64, OverflowError), ("1", TypeError)):
            uid = plistlib.UID(1)
            uid.data = data
            with self.assertRaises(error):
                sizhetom.dumps([uid])

    def test_lone_surrogates(self):
        for text in ("\ud800", "a\udfff", "\udc00\ud800"):
            self.assertRaises(UnicodeEncodeError, sizhetom.dumps, text)
            self.assertRaises(UnicodeEncodeError, sizhetom.dumps, {text: 1})

    def test_datetimes_with_a_time_zone(self):
        self.assertRaises(TypeError, sizhetom.dumps, datetime.datetime.now(datetime.timezone.utc))


class Misbehaving(unittest.TestCase):
    """Subclasses whose code does something else than expected while a value is written."""

    def test_items_that_are_no_pairs(self):
        for items in ([1], [()], [("a",)], [("a", 1, 2)], ["ab"], 5):
            class Odd(dict):
                def items(self):
                    return items
            self.assertRaises(TypeError, sizhetom.dumps, Odd(a=1))

    def test_a_list_that_is_cleared_while_it_is_written(self):
        outer = []

        class Clearing(dict):
            def items(self):
                outer.clear()
                return [("a", "b")]
        outer.extend([Clearing(), "c", "d"])
        self.assertEqual(sizhetom.loads(sizhetom.dumps(outer)), [{"a": "b"}])

    def test_a_dictionary_that_grows_while_it_is_written(self):
        outer = {}

        class Filling(datetime.datetime):
            def __sub__(self, other):
                outer.update((str(number), number) for number in range(1000))
                return datetime.timedelta(seconds=1)
        outer["a"] = Filling(2001, 1, 1)
        self.assertEqual(sizhetom.loads(sizhetom.dumps(outer))["a"], EPOCH + datetime.timedelta(seconds=1))

    def test_a_difference_of_dates_that_raises(self):
        class Failing(datetime.datetime):
            def __sub__(self, other):
                raise KeyError("no difference")
        self.assertRaises(KeyError, sizhetom.dumps, [Failing(2001, 1, 1)])


class Cycles(unittest.TestCase):
    def refused(self, value):
        with self.assertRaises(sizhetom.PlistError) as raised:
            sizhetom.dumps(value)
        self.assertEqual((str(raised.exception), raised.exception.offset), ("RecursiveObject", None))

    def test_collections_that_contain_themselves(self):
        own = []
        own.append(own)
        self.refused(own)
        self.refused(["a", own])
        pairs = {}
        pairs["a"] = [1, (2, pairs)]
        self.refused(pairs)
        ordered = collections.OrderedDict()
        ordered["a"] = ordered
        self.refused(ordered)

    def test_a_long_cycle(self):
        first = inner = []
        for _ in range(100_000):
            inner.append([])
            inner = inner[0]
        inner.extend(["a", first])
        self.refused(first)
        inner.clear()

    def test_a_collection_that_is_used_twice(self):
        twice = [1]
        self.assertEqual(sizhetom.loads(sizhetom.dumps([twice, [twice, twice]])), [[1], [[1], [1]]])
        self.assertEqual(sizhetom.loads(sizhetom.dumps({"a": {}, "b": [(), ()]})), {"a": {}, "b": [[], []]})


class Deep(unittest.TestCase):
    COUNT = 1_000_000

    def same_depth(self, value):
        data = sizhetom.dumps(value)
        kinds = [event.kind for event in sizhetom.events(data, max_depth=None, max_events=None)]
        ends = kinds.count("EndCollection")
        return ends, sizhetom.dumps(sizhetom.loads(data, max_depth=None, max_events=None)) == data

    def test_a_million_levels(self):
        lists, pairs = [], {}
        for _ in range(self.COUNT - 1):
            lists, pairs = [lists], {"key": pairs}
        self.assertEqual(self.same_depth(lists), (self.COUNT, True))
        self.assertEqual(self.same_depth(pairs), (self.COUNT, True))

    def test_a_small_call_stack(self):
        value = []
        for _ in range(self.COUNT - 1):
            value = [value]
        data = in_thread(lambda: sizhetom.dumps(value), 1 << 19)
        self.assertEqual(data, sizhetom.dumps(value))


if __name__ == "__main__":
    unittest.main()
