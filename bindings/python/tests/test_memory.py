"""What happens when memory runs out, and that no memory is lost."""
import datetime
import gc
import itertools
import plistlib
import resource
import subprocess
import sys
import tempfile
import tracemalloc
import unittest

import sizhetom
from lists import array, dictionary, file_of, levels, repeated, string

try:
    import _testcapi
except ImportError:
    _testcapi = None

VALUE = {
    "name": "a setting", "numbers": [1, -2, 2**64 - 1, 1.5], "icon": b"\x00\x01", "nested": {"a": [[], {}, ()]},
    "modified": datetime.datetime(2020, 1, 2, 3, 4, 5, 6), "uid": plistlib.UID(7), "text": "\xe9\U0001f600",
    "long": ["a text that is stored by itself " * 4] * 3, "names": [f"name {number}" for number in range(70)],
}
DATA = plistlib.dumps(VALUE, fmt=plistlib.FMT_BINARY, sort_keys=False)
OWN = [1, {}]
OWN[1]["a"] = OWN


class Odd(dict):
    def items(self):
        return [("a", "b"), "c"]


def raises(error, function, *words, **limits):
    try:
        function(*words, **limits)
    except error:
        return
    raise AssertionError("no error was raised")


def some_events():
    events = sizhetom.events(DATA)
    return [next(events) for _ in range(5)]


# Calls, by their names.
CALLS = {
    "loads": lambda: sizhetom.loads(DATA),
    "loads of a bytearray": lambda: sizhetom.loads(bytearray(DATA)),
    "loads of much": lambda: sizhetom.loads(repeated(string("a string of some length"), 2000)),
    "a fault": lambda: raises(sizhetom.PlistError, sizhetom.loads, file_of(array(1, 2), string("a"), b"\x70")),
    "a limit": lambda: raises(sizhetom.PlistError, sizhetom.loads, levels(100)),
    "a year": lambda: raises(sizhetom.PlistError, sizhetom.loads,
                             file_of(array(1, 2, 3), string("ab"), dictionary((1, 1)), b"\x33\xc2\x37" + bytes(6))),
    "all events": lambda: list(sizhetom.events(DATA)),
    "some events": some_events,
    "dumps": lambda: sizhetom.dumps(VALUE),
    "dumps that shares": lambda: sizhetom.dumps(VALUE, share=True),
    "a wrong value": lambda: raises(TypeError, sizhetom.dumps, [VALUE, {"a": [None]}]),
    "a wrong key": lambda: raises(TypeError, sizhetom.dumps, [VALUE, {1: 2}]),
    "wrong pairs": lambda: raises(TypeError, sizhetom.dumps, [VALUE, Odd()]),
    "a surrogate": lambda: raises(UnicodeEncodeError, sizhetom.dumps, [VALUE, "\ud800"]),
    "a number": lambda: raises(OverflowError, sizhetom.dumps, [VALUE, 2**64]),
    "a value that contains itself": lambda: raises(sizhetom.PlistError, sizhetom.dumps, OWN),
    "many levels": lambda: sizhetom.dumps(sizhetom.loads(levels(1000), max_depth=None)),
}


class Leaks(unittest.TestCase):
    ROUNDS = 100

    def growth(self, call):
        """Returns how many bytes more are allocated after many calls than after some."""
        for _ in range(20):
            call()
        gc.collect()
        tracemalloc.start()
        try:
            for _ in range(self.ROUNDS):
                call()
            gc.collect()
            return tracemalloc.get_traced_memory()[0]
        finally:
            tracemalloc.stop()

    def test_allocated_memory(self):
        for name, call in CALLS.items():
            with self.subTest(name):
                # What Python itself caches is allocated once.
                self.assertTrue(any(self.growth(call) < 8 * self.ROUNDS for _ in range(10)))

    def test_resident_memory(self):
        data = repeated(string("a string of some length"), 100_000)
        value = sizhetom.loads(data)

        def call():
            sizhetom.dumps(value)
            raises(sizhetom.PlistError, sizhetom.loads, data, max_events=90_000)
            list(itertools.islice(sizhetom.events(data), 10))
            return sizhetom.loads(bytearray(data))

        for _ in range(5):
            call()
        before = resource.getrusage(resource.RUSAGE_SELF).ru_maxrss
        for _ in range(50):
            call()
        self.assertLess(resource.getrusage(resource.RUSAGE_SELF).ru_maxrss - before, 4096)


@unittest.skipIf(_testcapi is None, "this Python has no module _testcapi")
class RefusedAllocations(unittest.TestCase):
    """Each allocation of Python in a call is refused in turn. The call then raises MemoryError, or
    returns what it returns with enough memory."""

    def refused(self, call, last):
        """Returns how many of the first allocations, each refused in its turn, end the call."""
        ended = 0
        for number in range(1, last):
            try:
                # Refuses this allocation alone.
                _testcapi.set_nomemory(number, number + 1)
                call()
            except MemoryError:
                ended += 1
            finally:
                _testcapi.remove_mem_hooks()
        return ended

    def test_loads(self):
        expected = sizhetom.loads(DATA)
        self.assertGreater(self.refused(CALLS["loads"], 400), 60)
        self.assertEqual(sizhetom.loads(DATA), expected)

    def test_events(self):
        self.assertGreater(self.refused(CALLS["all events"], 800), 200)

    def test_dumps(self):
        self.assertGreater(self.refused(CALLS["dumps"], 60), 5)
        self.assertEqual(sizhetom.loads(sizhetom.dumps(VALUE)), sizhetom.loads(DATA))

    def test_other_calls(self):
        for name in ("loads of a bytearray", "dumps that shares", "many levels"):
            with self.subTest(name):
                self.assertGreater(self.refused(CALLS[name], 60), 4)


LIMITED = """
import resource, sys
import sizhetom
data = open(sys.argv[1], "rb").read()
limits = dict(max_depth=None, max_events=None, max_bytes=None)
value = [b"some data, number %d" % number for number in range(200_000)]
calls = {"loads": lambda: sizhetom.loads(data, **limits), "dumps": lambda: sizhetom.dumps(value)}
# The call stack, which counts for the limit, grows when deep lists are deleted. It may do so before.
deep = sizhetom.loads(data, **limits)
del deep
used = int(open("/proc/self/statm").read().split()[0]) * resource.getpagesize()
resource.setrlimit(resource.RLIMIT_AS, (used + int(sys.argv[2]), used + int(sys.argv[2])))
try:
    calls[sys.argv[3]]()
    print("returned")
except MemoryError:
    print("MemoryError")
"""


class LittleMemory(unittest.TestCase):
    """Calls under limits of the address space, which the archive's allocations meet, too."""

    def test_less_and_less_memory(self):
        seen = set()
        with tempfile.NamedTemporaryFile() as file:
            file.write(levels(300_000))
            file.flush()
            for call, room in itertools.product(("loads", "dumps"), range(0, 200 << 20, 20 << 20)):
                words = [sys.executable, "-c", LIMITED, file.name, str(room), call]
                ended = subprocess.run(words, capture_output=True, text=True)
                self.assertEqual(ended.returncode, 0, (call, room, ended.stderr))
                self.assertIn(ended.stdout, ("returned\n", "MemoryError\n"))
                seen.add((call, ended.stdout))
        self.assertEqual(len(seen), 4)


if __name__ == "__main__":
    unittest.main()
