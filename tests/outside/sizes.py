#!/usr/bin/env python3
"""Measures the sizes of files of other programs, as `BinaryWriter` and `SharingWriter` write them.

- Settings: those that gnustep-base-common has for each language (`Languages`), which GNUstep reads
  and writes as one property list, with a dictionary for each language.
- Generated data: what clang's static analyzer reports for the example programs of zlib1g-dev. The
  reports are converted from XML by `plistutil`, as one array.
- Keyed archives: what GNUstep's `NSKeyedArchiver` writes for each of these, and the archive that is
  among the tests of the Rust crate.

The program in `tests/outside/sharing` reads each file and writes it with both writers. Python's
`plistlib` must read the same value from both outputs as from the input. Needs the kit, and Debian's
libgnustep-base1.28, gnustep-base-common, gnustep-base-runtime (`plser`), clang, zlib1g-dev,
libplist-utils and librust-plist-dev.

Usage: sizes.py [PROGRAM]
"""
import ctypes
import pathlib
import plistlib
import shutil
import subprocess
import sys
import tempfile

import speed_sharing

LANGUAGES = pathlib.Path("/usr/share/GNUstep/Libraries/gnustep-base")
EXAMPLES = pathlib.Path("/usr/share/doc/zlib1g-dev/examples")


class Gnustep:
    """Sends messages to GNUstep's objects."""

    def __init__(self):
        ctypes.CDLL("libgnustep-base.so.1.28", mode=ctypes.RTLD_GLOBAL)
        self.runtime = ctypes.CDLL("libobjc.so.4")
        for name, count in (("objc_getClass", 1), ("sel_registerName", 1), ("objc_msg_lookup", 2)):
            function = getattr(self.runtime, name)
            function.restype = ctypes.c_void_p
            function.argtypes = [ctypes.c_void_p if count == 2 else ctypes.c_char_p] * count
        self.send(self.send(self.kind("NSAutoreleasePool"), "alloc"), "init")

    def kind(self, name):
        return self.runtime.objc_getClass(name.encode())

    def send(self, target, message, *arguments, result=ctypes.c_void_p):
        selector = self.runtime.sel_registerName(message.encode())
        method = self.runtime.objc_msg_lookup(target, selector)
        types = [ctypes.c_char_p if isinstance(word, bytes) else ctypes.c_void_p for word in arguments]
        call = ctypes.CFUNCTYPE(result, ctypes.c_void_p, ctypes.c_void_p, *types)(method)
        return call(target, selector, *arguments)

    def text(self, text):
        return self.send(self.kind("NSString"), "stringWithUTF8String:", str(text).encode())

    def read(self, path, kind="NSDictionary"):
        """Returns the dictionary or array of a file, if it has one."""
        return self.send(self.kind(kind), f"{kind[2:].lower()}WithContentsOfFile:", self.text(path))

    def archive(self, value, path):
        call = "archiveRootObject:toFile:"
        self.send(self.kind("NSKeyedArchiver"), call, value, self.text(path), result=ctypes.c_bool)


def settings_of_languages(gnustep):
    """Returns a dictionary of the settings of each language that GNUstep can read."""
    every = gnustep.send(gnustep.kind("NSMutableDictionary"), "dictionary")
    for path in sorted(LANGUAGES.glob("Versions/*/Resources/Languages/*")):
        settings = gnustep.read(path)
        if settings and not path.suffix:
            gnustep.send(every, "setObject:forKey:", settings, gnustep.text(path.name))
    return every


def settings(gnustep, folder):
    every = settings_of_languages(gnustep)
    text, path, archive = folder / "settings.text", folder / "settings.plist", folder / "settings.archive"
    gnustep.send(every, "writeToFile:atomically:", gnustep.text(text), None, result=ctypes.c_bool)
    with open(path, "wb") as out:
        subprocess.run(["plser", "-Format", "NSPropertyListBinaryFormat_v1_0", text], stdout=out, check=True)
    yield "settings of GNUstep's languages", path
    gnustep.archive(every, archive)
    yield "keyed archive of these", archive


def reports(gnustep, folder):
    texts = []
    for source in sorted(EXAMPLES.glob("*.c")):
        report = folder / f"{source.stem}.xml"
        subprocess.run(["clang", "--analyze", "-Xclang", "-analyzer-output=plist", source, "-o", report],
                       stderr=subprocess.DEVNULL, cwd=folder)
        if report.exists():
            texts.append(report.read_text())
    # their property lists, as the items of one array
    bodies = [text[text.index("<plist"):] for text in texts]
    items = "".join(body[body.index(">") + 1:body.rindex("</plist>")] for body in bodies)
    text, path, archive = folder / "reports.xml", folder / "reports.plist", folder / "reports.archive"
    head = texts[0][:texts[0].index("<plist")]
    text.write_text(f'{head}<plist version="1.0"><array>{items}</array></plist>')
    subprocess.run(["plistutil", "-i", text, "-o", path, "-f", "bin"], check=True)
    yield f"clang's reports on {len(texts)} programs", path
    gnustep.archive(gnustep.read(text, "NSArray"), archive)
    yield "keyed archive of these", archive


def archive_of_the_crate(_, folder):
    for path in pathlib.Path("/usr/share/cargo/registry").glob("plist-*/tests/data/binary_NSKeyedArchiver.plist"):
        yield "keyed archive of the crate's tests", pathlib.Path(shutil.copy(path, folder / "crate.archive"))


def objects_of(path):
    return int.from_bytes(path.read_bytes()[-24:-16], "big")


def row(name, built, path):
    sizes, read = [], plistlib.loads(path.read_bytes())
    for writer in ("plain", "sharing"):
        out = path.with_suffix(f".{writer}")
        subprocess.run([built, writer, path, out], check=True, stdout=subprocess.DEVNULL)
        if plistlib.loads(out.read_bytes()) != read:
            sys.exit(f"{name}: {writer} has written something else")
        sizes.append((out.stat().st_size, objects_of(out)))
    cells = " | ".join(f"{size:,} ({objects:,} objects)" for size, objects in sizes)
    print(f"| {name} | {path.stat().st_size:,} ({objects_of(path):,} objects) | {cells} "
          f"| {sizes[1][0] / sizes[0][0]:.2f} |", flush=True)


def main(words):
    with tempfile.TemporaryDirectory() as name:
        folder = pathlib.Path(name)
        built = pathlib.Path(words[0]).resolve() if words else speed_sharing.program(folder)
        speed_sharing.speed.heading(["input", "as it was written", "`BinaryWriter`", "`SharingWriter`", "ratio"])
        gnustep = Gnustep()
        for inputs in (settings, reports, archive_of_the_crate):
            for what, path in inputs(gnustep, folder):
                row(what, built, path)


if __name__ == "__main__":
    main(sys.argv[1:])
