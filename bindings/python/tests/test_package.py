"""The names and numbers of the header, the sources of the extension, and what is installed."""
import ast
import doctest
import pathlib
import re
import shutil
import subprocess
import sys
import sysconfig
import tempfile
import unittest

import sizhetom
from sizhetom import _errors, _sizhetom

HERE = pathlib.Path(__file__).resolve().parents[1]
HEADER = HERE.parent / "c/sizhetom.h"
sys.path.insert(0, str(HERE))
import build_backend  # noqa: E402


def constants(first):
    """Returns the numbers of the enumeration in the header whose first name is this, by their names."""
    text = re.sub(r"/\*.*?\*/", "", HEADER.read_text(), flags=re.S)
    body, = (body for body in re.findall(r"enum \{(.*?)\}", text, re.S) if f"SIZHETOM_{first} " in body)
    return {name: int(number) for name, number in re.findall(r"SIZHETOM_(\w+) = (\d+)", body)}


def camel(name):
    """Returns INVALID_MAGIC as InvalidMagic."""
    return "".join(word.capitalize() for word in name.split("_"))


class Names(unittest.TestCase):
    def test_the_kinds_of_events(self):
        kinds = constants("START_ARRAY")
        self.assertEqual(len(kinds), 12)
        for name, number in kinds.items():
            self.assertEqual(_errors.EVENT_KINDS[number], camel(name))
        self.assertEqual(len(_errors.EVENT_KINDS), 13)

    def test_the_kinds_of_faults(self):
        faults = constants("OK")
        self.assertEqual(faults.pop("OK"), 0)
        self.assertEqual(len(faults), 35)
        for name, number in faults.items():
            self.assertEqual(_errors.FAULT_KINDS[number], camel(name))
        self.assertEqual(len(_errors.FAULT_KINDS), 36)

    def test_the_limits(self):
        self.assertEqual(constants("LIMIT_DEPTH"), {"LIMIT_DEPTH": 0, "LIMIT_EVENTS": 1})
        # The library's name of the limit on events is Items.
        self.assertEqual(_errors.LIMITS, ("Depth", "Items"))

    def test_the_versions(self):
        version = ".".join(map(str, _sizhetom.library_version()))
        self.assertEqual((sizhetom.__version__, build_backend.VERSION), (version, version))


class Sources(unittest.TestCase):
    def test_no_warning(self):
        compiler = sysconfig.get_config_var("CC").split()[0]
        options = ["-std=c11", "-O2", "-Wall", "-Wextra", "-Werror", "-fPIC", "-c", "-o"]
        with tempfile.TemporaryDirectory() as folder:
            for source in (HERE / "extension").glob("*.c"):
                words = [compiler, *build_backend.headers(), *options, f"{folder}/object", str(source)]
                self.assertEqual(subprocess.run(words, capture_output=True, text=True).stderr, "")

    def test_the_type_hints_name_what_there_is(self):
        package = pathlib.Path(sizhetom.__file__).parent
        self.assertTrue((package / "py.typed").exists())
        hints = ast.parse((package / "_sizhetom.pyi").read_text())
        named = {node.name for node in hints.body if isinstance(node, (ast.ClassDef, ast.FunctionDef))}
        public = {name for name in vars(_sizhetom) if not name.startswith("_")}
        self.assertEqual(named, public)

    def test_the_names_of_the_package(self):
        self.assertEqual(set(sizhetom.__all__), {
            "Event", "PlistError", "UID", "dump", "dumps", "events", "load", "loads"})
        for name in set(sizhetom.__all__) - {"UID"}:
            self.assertTrue(getattr(sizhetom, name).__doc__)


SMALL_GUESS = """
import sizhetom
for value in (1, [], {}, "", "a", [2**64 - 1] * 9, list(range(1000)), {"a": [b"b", {}]}):
    print(sizhetom.dumps(value).hex(), sizhetom.dumps(value, share=True).hex())
"""


class SmallGuess(unittest.TestCase):
    """The extension with a smaller guess of a file's length, so that the writer is called again."""

    def printed(self, folder):
        words = [sys.executable, "-c", SMALL_GUESS]
        return subprocess.run(words, env={"PYTHONPATH": str(folder)}, capture_output=True, text=True).stdout

    def test_the_same_is_written(self):
        installed = pathlib.Path(sizhetom.__file__).parent
        with tempfile.TemporaryDirectory() as folder:
            package = shutil.copytree(installed, pathlib.Path(folder, "sizhetom"))
            build_backend.compile_extension(package, ["-DOBJECT=0"])
            found = self.printed(folder)
        self.assertEqual(found.count("\n"), 8)
        self.assertEqual(found, self.printed(installed.parent))


class Missing(unittest.TestCase):
    """What the build says if a file is missing: one sentence."""

    def message(self, call, **variables):
        code = f"import build_backend as b; b.{call}()"
        done = subprocess.run([sys.executable, "-c", code], cwd=HERE, env=variables, capture_output=True, text=True)
        self.assertEqual(done.returncode, 1)
        return done.stderr

    def test_no_archive(self):
        self.assertEqual(
            self.message("archive", SIZHETOM_LIB="/none"),
            "There is no /none/libplist_c.a: build it by `tools/build plist_c`, or name its folder by SIZHETOM_LIB.\n")

    def test_no_kit(self):
        self.assertEqual(
            self.message("heap", PATH="/none"),
            "There is no liblibc_c.a: put the kit's command `rt` on the path, or name its folder by SIZHETOM_HEAP.\n")


def load_tests(loader, tests, pattern):
    tests.addTests(doctest.DocTestSuite(sizhetom))
    return tests


if __name__ == "__main__":
    unittest.main()
