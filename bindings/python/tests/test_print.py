"""What examples/print.py prints."""
import pathlib
import subprocess
import sys
import tempfile
import unittest

import sizhetom
from lists import array, dictionary, file_of, string

PRINT = pathlib.Path(__file__).resolve().parents[1] / "examples/print.py"
EVERY_KIND = file_of(
    array(1, 3, 4, 5, 6, 7, 8, 9, 10, 11, 12, 13, 14), dictionary((2, 3)), string("k"), b"\x09", b"\x08",
    b"\x42\x00\xff", b"\x40", bytes.fromhex("33bff0000000000000"), bytes.fromhex("33bfe0000000000000"), b"\x10\x05",
    b"\x13" + bytes([255] * 8), bytes.fromhex("223fc00000"), bytes.fromhex("237ff8000000000001"),
    bytes.fromhex("68" "0061" "0022" "005c" "000a" "007f" "00e9" "d83d" "de00"), b"\x80\x04")
LINES = r"""StartArray 13
StartDictionary 1
String "k"
Boolean true
EndCollection
Boolean true
Boolean false
Data 00ff
Data
Date -1
Date -1 bfe0000000000000
Integer 5
Integer -1
Real 3fc00000
Real 7ff8000000000001
String "a\x22\x5c\x0a\x7f\xc3\xa9\xf0\x9f\x98\x80"
Uid 4
EndCollection
"""


class Print(unittest.TestCase):
    def setUp(self):
        self.folder = tempfile.TemporaryDirectory()
        self.addCleanup(self.folder.cleanup)

    def path(self, name, data):
        path = pathlib.Path(self.folder.name, name)
        path.write_bytes(data)
        return str(path)

    def printed(self, *paths):
        """Returns the status and what is printed to standard output and standard error."""
        package = str(pathlib.Path(sizhetom.__file__).parents[1])
        words = [sys.executable, str(PRINT), *paths]
        done = subprocess.run(words, capture_output=True, text=True, env={"PYTHONPATH": package})
        return done.returncode, done.stdout, done.stderr

    def test_every_kind(self):
        self.assertEqual(self.printed(self.path("every", EVERY_KIND)), (0, LINES, ""))

    def test_ascii(self):
        path = self.path("ascii", b"{ a = ( 1 ); }")
        lines = 'StartDictionary\nString "a"\nStartArray\nInteger 1\nEndCollection\nEndCollection\n'
        self.assertEqual(self.printed(path), (0, lines, ""))

    def test_a_fault(self):
        path = self.path("fault", file_of(array(1, 2), b"\x09", b"\x88"))
        lines = "StartArray 2\nBoolean true\n"
        self.assertEqual(self.printed(path), (1, lines, "Error: UnknownObjectType(136) (offset 12)\n"))

    def test_some_files(self):
        paths = [self.path("first", b"a"), self.path("none", b"\x3c"), self.path("last", b"5")]
        self.assertEqual(self.printed(*paths), (1, 'String "a"\nInteger 5\n', "Error: XmlUnsupported (offset 0)\n"))

    def test_a_file_that_is_missing(self):
        status, lines, error = self.printed("/none")
        self.assertEqual((status, lines), (1, ""))
        self.assertTrue(error.startswith("Error: "))

    def test_no_file(self):
        self.assertEqual(self.printed(), (2, "", "usage: print.py FILE..\n"))


if __name__ == "__main__":
    unittest.main()
