#!/usr/bin/env python3
"""Runs CPython's own tests of binary property lists with the Python package in place of plistlib.

The tests are those of the module test.test_plistlib, which is part of a Python installation. In it
`loads`, `load`, `dumps` and `dump` of plistlib are replaced for binary lists by those of
bindings/python, without limits, since plistlib has none. For XML they remain. Where a test expects
InvalidFileException, PlistError is accepted, too.

Usage: plistlib_tests.py [-v]

Needs Python 3.11, the archive of crates/plist_c, the kit and a C compiler. `DIFFERENT` lists the tests
that must fail, with the reasons, which -v prints. The status is 1 if another test fails or a listed
one passes.
"""
import plistlib
import sys
import types
import unittest

import python_package

sizhetom = python_package.build()

CLASSES = ("TestPlistlib", "TestBinaryPlistlib", "TestKeyedArchive")

NO_NULL = "There is no null: `dumps` raises TypeError, and `loads` raises PlistError."
NO_IDENTITY = "`loads` returns a value of its own for each reference to an object."
NO_SHARING = "`dumps` writes a list or dictionary at each reference to it. (`share` stores equal ones once.)"
NO_CYCLES = "A list or dictionary that contains itself is an error."
NO_SORTING = "`dumps` keeps the order of the keys."
NO_SKIPPING = "`dumps` can't leave out keys that aren't strings."
OTHER_ORDER = "`dumps` writes the objects in another order."

# The tests that differ: the test, the part of it that fails, and the reason.
DIFFERENT = {
    ("TestPlistlib.test_appleformatting", "fmt=FMT_BINARY"): OTHER_ORDER,
    ("TestPlistlib.test_keysort", "fmt=FMT_BINARY, sort_keys=True"): NO_SORTING,
    ("TestPlistlib.test_keysort_bytesio", "fmt=FMT_BINARY, sort_keys=True"): NO_SORTING,
    ("TestPlistlib.test_skipkeys", "fmt=FMT_BINARY"): NO_SKIPPING,
    ("TestBinaryPlistlib.test_cycles", ""): NO_CYCLES,
    ("TestBinaryPlistlib.test_load_singletons", ""): NO_NULL,
    ("TestBinaryPlistlib.test_dump_duplicates", "x=None"): NO_NULL,
    ("TestBinaryPlistlib.test_dump_duplicates", "x=[12, 345]"): NO_SHARING,
    ("TestBinaryPlistlib.test_dump_duplicates", "x=(12, 345)"): NO_SHARING,
    ("TestBinaryPlistlib.test_dump_duplicates", "x={'12': 345}"): NO_SHARING,
    ("TestBinaryPlistlib.test_identity", "x=None"): NO_NULL,
    ("TestBinaryPlistlib.test_identity", "x=12345"): NO_IDENTITY,
    ("TestBinaryPlistlib.test_identity", "x=123.45"): NO_IDENTITY,
    ("TestBinaryPlistlib.test_identity", "x=b'abcde'"): NO_IDENTITY,
    ("TestBinaryPlistlib.test_identity", "x=bytearray(b'abcde')"): NO_IDENTITY,
    ("TestBinaryPlistlib.test_identity", "x=datetime.datetime(2004, 10, 26, 10, 33, 33)"): NO_IDENTITY,
    ("TestBinaryPlistlib.test_identity", "x=[12, 345]"): NO_IDENTITY,
    ("TestBinaryPlistlib.test_identity", "x=(12, 345)"): NO_IDENTITY,
    ("TestBinaryPlistlib.test_identity", "x={'12': 345}"): NO_IDENTITY,
}


def is_binary(data):
    return bytes(data[:8]) == b"bplist00"


class Replaced:
    """plistlib with the functions of this package for binary lists, and a count of their calls."""

    def __init__(self):
        self.calls = 0

    def loads(self, value, *, fmt=None, dict_type=dict):
        if fmt is plistlib.FMT_XML or (fmt is None and not is_binary(value)):
            return plistlib.loads(value, fmt=fmt, dict_type=dict_type)
        self.calls += 1
        read = sizhetom.loads(value, max_depth=None, max_events=None, max_bytes=None)
        # The package has no such argument. Its dictionaries keep the order of the file.
        return read if dict_type is dict else dict_type(read)

    def load(self, fp, *, fmt=None, dict_type=dict):
        return self.loads(fp.read(), fmt=fmt, dict_type=dict_type)

    def dumps(self, value, *, fmt=plistlib.FMT_XML, skipkeys=False, sort_keys=True):
        if fmt is not plistlib.FMT_BINARY:
            return plistlib.dumps(value, fmt=fmt, skipkeys=skipkeys, sort_keys=sort_keys)
        self.calls += 1
        return sizhetom.dumps(value)

    def dump(self, value, fp, *, fmt=plistlib.FMT_XML, skipkeys=False, sort_keys=True):
        fp.write(self.dumps(value, fmt=fmt, skipkeys=skipkeys, sort_keys=sort_keys))


class Result(unittest.TestResult):
    """The tests that called the package, and the failures, each as a name and the part of the test."""

    def __init__(self, replaced):
        super().__init__()
        self.replaced, self.ran, self.failed = replaced, set(), {}

    def startTest(self, test):
        super().startTest(test)
        self.before = self.replaced.calls

    def stopTest(self, test):
        super().stopTest(test)
        if self.replaced.calls > self.before:
            self.ran.add(name_of(test))

    def note(self, test, part, error):
        self.failed[name_of(test), part] = error[1]

    def addError(self, test, err):
        self.note(test, "", err)

    def addFailure(self, test, err):
        self.note(test, "", err)

    def addSubTest(self, test, subtest, err):
        if err is not None:
            parts = (f"{name}={getattr(value, 'name', repr(value))}" for name, value in subtest.params.items())
            self.note(test, ", ".join(parts), err)


def name_of(test):
    return ".".join(test.id().split(".")[-2:])


def tests_with(replaced):
    """Returns the tests, in whose module plistlib is replaced."""
    try:
        from test import test_plistlib
    except ImportError:
        sys.exit("this Python was installed without the module test.test_plistlib")
    names = {name: getattr(plistlib, name) for name in dir(plistlib)}
    names.update({name: getattr(replaced, name) for name in ("loads", "load", "dumps", "dump")})
    names["InvalidFileException"] = (plistlib.InvalidFileException, sizhetom.PlistError)
    test_plistlib.plistlib = types.SimpleNamespace(**names)
    load = unittest.defaultTestLoader.loadTestsFromTestCase
    return unittest.TestSuite(load(getattr(test_plistlib, name)) for name in CLASSES)


def main(words):
    replaced = Replaced()
    result = Result(replaced)
    tests_with(replaced).run(result)
    wrong = [key for key in result.failed if key not in DIFFERENT]
    for key in wrong:
        print(f"fails: {' '.join(key)}: {result.failed[key]!r}")
    passed = [key for key in DIFFERENT if key not in result.failed]
    for key in passed:
        print(f"passes, but is listed: {' '.join(key)}")
    if "-v" in words:
        for key, reason in DIFFERENT.items():
            print(f"differs: {' '.join(key)}: {reason}")
    different = {name for name, _ in result.failed}
    print(f"{len(result.ran)} tests read or write binary lists; {len(result.ran - different)} of them pass, "
          f"and {len(result.failed)} parts of the other {len(different)} differ")
    return 1 if wrong or passed else 0


if __name__ == "__main__":
    sys.exit(main(sys.argv[1:]))
