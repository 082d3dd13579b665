#!/usr/bin/env python3
"""Compares the speed of `plist_tool print` with other programs, on files that it makes.

Each shape of file is made in some sizes. The programs run in turn. For each program the least
processor time (user and system) and the greatest peak memory are printed. The other programs are a
program over the Rust crate `plist` as Debian packages it (librust-plist-dev, built by cargo from
tests/outside/peer; it reads the whole file into memory first; if the variable PEER is set, it names
such a program, over any version of the crate), Python's plistlib, and plistutil
(libplist), which converts the file to XML. Programs that aren't installed are left out. If a
program fails on a shape, its cell says `fails`. If the first run of a program is short, there are
more runs, so that a difference of a few milliseconds can be seen. If it is long, there is no second
run.

Two more tables compare how fast the library (tests/outside/items and tests/outside/values, which are
proved and built in a copy of their crates by the kit's `rt`) and the crate read a slice: into events
that own their strings, and into a value, which is dropped. They are for one pass: the time of a run of
many passes minus that of a run of one, divided by the number of additional passes. After the first
table are the numbers of system calls, if `strace` is installed.

Usage: speed.py [MEGABYTES ..]      1, 10 and 50 by default
"""
import datetime
import itertools
import math
import os
import pathlib
import plistlib
import random
import shutil
import subprocess
import sys
import tempfile
import time


HERE = pathlib.Path(__file__).resolve().parent
PLIST_TOOL = HERE.parents[1] / "plist_tool"
PROGRAM = HERE.parents[1] / "crates/plist_tool/out/plist_tool"
RUNS = 5
# a program that takes fewer seconds than this is run this many times
SHORT, SHORT_RUNS = 0.05, 25
SECONDS = 60
# the number of passes over bytes in memory that are timed
PASSES = 10
# a program that takes this many seconds isn't run again
LONG = 2
# for fewer objects the memory of each isn't printed, since up to 68 MB of windows would count
MANY = 500_000

# ---- the files


class File:
    """A binary property list, object by object; references and offsets have four bytes."""

    def __init__(self):
        self.objects, self.size = [], 8

    def add(self, content):
        self.objects.append(content)
        self.size += len(content) + 4
        return len(self.objects) - 1

    def head(self, kind, length):
        if length < 15:
            return bytes([kind << 4 | length])
        return bytes([kind << 4 | 15, 0x12]) + length.to_bytes(4, "big")

    def text(self, text):
        return self.add(self.head(5, len(text)) + text.encode())

    def integer(self, number):
        return self.add(b"\x12" + number.to_bytes(4, "big"))

    def data(self, content):
        return self.add(self.head(4, len(content)) + content)

    def array(self, items):
        return self.add(self.head(10, len(items)) + b"".join(n.to_bytes(4, "big") for n in items))

    def dictionary(self, pairs):
        numbers = [key for key, _ in pairs] + [value for _, value in pairs]
        return self.add(self.head(13, len(pairs)) + b"".join(n.to_bytes(4, "big") for n in numbers))

    def bytes(self, root):
        table, place = [], 8
        for content in self.objects:
            table.append(place.to_bytes(4, "big"))
            place += len(content)
        numbers = b"".join(n.to_bytes(8, "big") for n in (len(self.objects), root, place))
        return b"bplist00" + b"".join(self.objects) + b"".join(table) + bytes(6) + b"\x04\x04" + numbers


def integers(size):
    file = File()
    items = [file.integer(n) for n in range(size // 13)]
    return file.bytes(file.array(items))


def distinct_texts(size):
    file, items = File(), []
    while file.size + 4 * len(items) < size:
        items.append(file.text(f"a text of its own, number {len(items)}"))
    return file.bytes(file.array(items))


def repeated_texts(size):
    file = File()
    texts = [file.text(f"one of a thousand texts, number {n}") for n in range(1000)]
    return file.bytes(file.array([texts[n * 7919 % 1000] for n in range(size // 4)]))


def settings(size):
    file, items, rng = File(), [], random.Random(1)
    keys = [file.text(key) for key in ("name", "enabled", "count", "path", "modified", "icon", "tags", "options")]
    shared = [file.text(f"value {n}") for n in range(5000)]
    yes, no = file.add(b"\x09"), file.add(b"\x08")
    while file.size + 4 * len(items) < size:
        number = len(items)
        values = [
            file.text(f"setting {number}"), rng.choice((yes, no)), file.integer(number), rng.choice(shared),
            file.add(b"\x33\x41" + rng.randbytes(7)), file.data(rng.randbytes(24)),
            file.array(rng.choices(shared, k=4)), file.dictionary([(rng.choice(shared), no), (keys[0], rng.choice(shared))]),
        ]
        items.append(file.dictionary(list(zip(keys, values))))
    return file.bytes(file.array(items))


def blobs(size):
    file, rng = File(), random.Random(1)
    return file.bytes(file.array([file.data(rng.randbytes(1 << 16)) for _ in range(max(1, size >> 16))]))


def levels(count):
    file = File()
    inner = file.array([])
    for _ in range(count - 1):
        inner = file.array([inner])
    return file.bytes(inner)


def doubling(depth):
    """Returns a file of few objects. Each additional one doubles the number of events."""
    file = File()
    inner = file.array([])
    for _ in range(depth):
        inner = file.array([inner, inner])
    return file.bytes(inner)


def texts_beyond_ascii(size):
    file, items = File(), []
    while file.size + 4 * len(items) < size:
        content = f"ein Text für sich, № {len(items)}".encode("utf-16-be")
        items.append(file.add(file.head(6, len(content) // 2) + content))
    return file.bytes(file.array(items))


def some_settings(count):
    """Returns settings as Python values, which share 5,000 texts."""
    rng, start = random.Random(1), datetime.datetime(2001, 1, 1)
    shared = [f"value {n}" for n in range(5000)]
    return [{
        "name": f"setting {number}", "enabled": rng.random() < 0.5, "count": number, "path": rng.choice(shared),
        "modified": start + datetime.timedelta(seconds=rng.randrange(10**9)), "icon": rng.randbytes(24),
        "tags": rng.choices(shared, k=4), "options": {rng.choice(shared): False, "name": rng.choice(shared)},
    } for number in range(count)]


def settings_by_plistlib(size):
    """Returns settings in the layout of plistlib."""
    return plistlib.dumps(some_settings(size // 185), fmt=plistlib.FMT_BINARY, sort_keys=False)


def settings_by_plistutil(size):
    """Returns settings in the layout of libplist."""
    xml = plistlib.dumps(some_settings(size // 185), sort_keys=False)
    return subprocess.run(["plistutil", "-f", "bin"], input=xml, capture_output=True, check=True).stdout


def keyed_archive(size):
    """Returns an archive of many objects of one class, as `NSKeyedArchiver` stores them."""
    objects = ["$null"]

    def uid(value):
        objects.append(value)
        return plistlib.UID(len(objects) - 1)

    of_array, of_note = (
        uid({"$classname": name, "$classes": [name, "NSObject"]}) for name in ("NSArray", "Note"))
    notes = [
        uid({"$class": of_note, "number": n, "title": uid(f"the title of note {n}"), "isDone": n % 3 == 0})
        for n in range(size // 99)
    ]
    root = uid({"$class": of_array, "NS.objects": notes})
    archive = {"$version": 100000, "$archiver": "NSKeyedArchiver", "$top": {"root": root}, "$objects": objects}
    return plistlib.dumps(archive, fmt=plistlib.FMT_BINARY, sort_keys=False)


def info_of(number):
    """Returns what an application says about itself in its Info.plist."""
    name = f"Application{number}"
    return {
        "BuildMachineOSBuild": "23A344", "CFBundleDevelopmentRegion": "en", "CFBundleExecutable": name,
        "CFBundleIdentifier": f"org.example.{name}", "CFBundleInfoDictionaryVersion": "6.0",
        "CFBundleName": name, "CFBundlePackageType": "APPL", "CFBundleVersion": str(number),
        "CFBundleShortVersionString": f"{number % 9}.{number % 7}", "CFBundleSupportedPlatforms": ["MacOSX"],
        "DTCompiler": "com.apple.compilers.llvm.clang.1_0",
        "DTPlatformName": "macosx", "DTSDKName": "macosx14.0", "LSMinimumSystemVersion": "12.0",
        "LSRequiresNativeExecution": True, "NSHighResolutionCapable": True, "NSPrincipalClass": "NSApplication",
        "CFBundleDocumentTypes": [
            {"CFBundleTypeExtensions": [f"ex{number}", kind], "CFBundleTypeRole": "Editor", "LSHandlerRank": "Owner",
             "LSItemContentTypes": [f"org.example.{name}.{kind}"]} for kind in ("text", "image")],
        "UTExportedTypeDeclarations": [
            {"UTTypeConformsTo": ["public.data", "public.content"], "UTTypeDescription": f"{name} document",
             "UTTypeIdentifier": f"org.example.{name}.text",
             "UTTypeTagSpecification": {"public.filename-extension": [f"ex{number}"]}}],
    }


def infos(size):
    """Returns a list of about this size."""
    return plistlib.dumps([info_of(number) for number in range(size // 568)], fmt=plistlib.FMT_BINARY, sort_keys=False)


def references_of(content, width):
    """Returns where the references of an object begin, and how many it has (a scalar has none)."""
    kind, count, start = content[0] >> 4, content[0] & 15, 1
    if kind not in (10, 13):
        return 0, 0
    if count == 15:
        start = 2 + (1 << (content[1] & 15))
        count = int.from_bytes(content[2:start], "big")
    return start, count * (2 if kind == 13 else 1)


def renumbered(data, are_moved):
    """Returns the file with random numbers for its objects.

    If the objects are moved, they are in the order of these numbers.
    """
    rng, (width, reference) = random.Random(1), data[-26:-24]
    count, root, table = (int.from_bytes(data[i:i + 8], "big") for i in range(len(data) - 24, len(data), 8))
    places = [int.from_bytes(data[i:i + width], "big") for i in range(table, table + count * width, width)]
    ends = dict(zip(sorted(places), [*sorted(places)[1:], table]))
    number_of = list(range(count))
    rng.shuffle(number_of)
    objects = []
    for place in places:
        content = data[place:ends[place]]
        start, many = references_of(content, reference)
        rest = [int.from_bytes(content[i:i + reference], "big") for i in range(start, start + many * reference, reference)]
        moved = b"".join(number_of[child].to_bytes(reference, "big") for child in rest)
        objects.append(content[:start] + moved + content[start + len(moved):])
    order = sorted(range(count), key=number_of.__getitem__ if are_moved else places.__getitem__)
    starts = itertools.accumulate((len(objects[i]) for i in order), initial=8)
    offsets = [b""] * count
    for i, start in zip(order, starts):
        offsets[number_of[i]] = start.to_bytes(width, "big")
    numbers = b"".join(n.to_bytes(8, "big") for n in (count, number_of[root], table))
    return (b"bplist00" + b"".join(objects[i] for i in order) + b"".join(offsets) + bytes(6)
            + bytes([width, reference]) + numbers)


# The settings that plistlib made, with other numbers: once in the same order in the file, and once in the
# order of these numbers.
def renumbered_settings(size):
    return renumbered(settings_by_plistlib(size), False)


def scattered_settings(size):
    return renumbered(settings_by_plistlib(size), True)


SHAPES = {"integers": integers, "distinct strings": distinct_texts, "repeated strings": repeated_texts,
          "settings": settings, "blobs": blobs, "strings beyond ASCII": texts_beyond_ascii,
          "settings by plistlib": settings_by_plistlib, "settings, renumbered": renumbered_settings,
          "settings, scattered": scattered_settings, "a keyed archive": keyed_archive,
          "an Info.plist, many in a list": infos}
if shutil.which("plistutil"):
    SHAPES["settings by plistutil"] = settings_by_plistutil
LEVELS = {"10^5 levels": lambda: levels(10**5), "10^6 levels": lambda: levels(10**6)}
SHARING = {"doubling, 2^17 arrays": lambda: doubling(16), "doubling, 2^20 arrays": lambda: doubling(19)}
OTHERS = {**LEVELS, **SHARING}


def make(path, shape, *size):
    """Makes a file in a process of its own, since this one's memory would count for the programs."""
    words = [sys.executable, __file__, "--make", path, shape, *size]
    subprocess.run([str(word) for word in words], check=True)


def made(path, shape, *size):
    content = SHAPES[shape](int(size[0]) * 1_000_000) if size else OTHERS[shape]()
    pathlib.Path(path).write_bytes(content)

# ---- the programs


def peer(folder):
    """Returns the program over the crate that PEER names, or builds it if cargo and the crate are installed."""
    if "PEER" in os.environ:
        return pathlib.Path(os.environ["PEER"])
    if shutil.which("cargo") is None:
        return None
    source = shutil.copytree(HERE / "peer", folder / "peer")
    registry = ["--config", 'source.crates-io.replace-with="debian"',
                "--config", 'source.debian.directory="/usr/share/cargo/registry"']
    built = subprocess.run(["cargo", "build", "--release", "--offline", *registry], cwd=source, capture_output=True)
    return source / "target/release/peer" if built.returncode == 0 else None


def built(folder, name, crates, uses, words):
    """Proves and builds a program of this folder in a repository of its own, if the kit is installed.

    `crates` are all that it uses, `uses` those that it names. It is run once with these arguments."""
    if shutil.which("rt") is None:
        return None
    top, root = HERE.parents[1], folder / name
    for crate in crates:
        shutil.copytree(top / "crates" / crate, root / "crates" / crate, ignore=shutil.ignore_patterns("incremental"))
    source = root / "crates" / name / "src"
    source.mkdir(parents=True)
    shutil.copy(HERE / name / "main.rt.in", source / "main.rt")
    lines = (top / "crates.txt").read_text().splitlines()
    kept = [line for line in lines if line.split(":")[0] in crates]
    (root / "crates.txt").write_text("\n".join([*kept, f"{name}: {uses}", ""]))
    subprocess.run(["rt", "run", "--", *words], cwd=source.parent, stdout=sys.stderr)
    program = source.parent / "out" / name
    return program if program.exists() else None


def items_program(folder):
    """Builds the program over `BinaryReader`."""
    return built(folder, "items", ("plist_base", "plist_decode", "plist_binread"),
                 "plist_base plist_binread", ["no_such_file"])


def values_program(folder):
    """Builds the program over `Value::from_reader`."""
    crates = ("plist_base", "plist_decode", "plist_binread", "plist_buffer", "plist_binwrite",
              "plist_ascii", "plist_reader", "plist_pairs", "plist")
    return built(folder, "values", crates, "plist", ["no_such_file"])


def programs(crate):
    # builds the program where that is needed
    subprocess.run([PLIST_TOOL], capture_output=True)
    yield "plist_tool", [PROGRAM, "print"]
    if crate:
        yield "the crate", [crate, "print"]
    yield "plistlib", [sys.executable, "-c", "import plistlib, sys; plistlib.load(open(sys.argv[1], 'rb'))"]
    if shutil.which("plistutil"):
        yield "plistutil", ["plistutil", "-f", "xml", "-i"]


def peak_of(pid, before):
    """Returns the peak memory of a running process in bytes, or `before` if it can't be read."""
    try:
        with open(f"/proc/{pid}/status") as status:
            return max([before, *(int(line.split()[1]) * 1024 for line in status if line.startswith("VmHWM"))])
    except OSError:
        return before


def measure(words):
    """Returns the processor seconds and peak bytes of a run, or None if it fails or takes too long.

    The memory that the system reports for a child includes that of its parent, so it is read while
    the child runs, and is 0 if the child ended too early."""
    start, peak = time.monotonic(), 0
    with open(os.devnull, "wb") as sink:
        child = subprocess.Popen([str(word) for word in words], stdout=sink, stderr=sink)
        while True:
            peak = peak_of(child.pid, peak)
            done, status, usage = os.wait4(child.pid, os.WNOHANG)
            if done:
                break
            if time.monotonic() - start > SECONDS:
                child.kill()
                os.wait4(child.pid, 0)
                child.returncode = -9
                return None
            time.sleep(0.001)
    child.returncode = status
    return (usage.ru_utime + usage.ru_stime, peak) if status == 0 else None


def best(runs):
    """Returns the least time and the greatest memory."""
    return None if None in runs else (min(time for time, _ in runs), max(peak for _, peak in runs))


def runs_wanted(taken):
    """Returns how many runs a program needs in all, given these runs."""
    if None in taken:
        return 0
    if not taken:
        return 1
    first = taken[0][0]
    return 1 if first > LONG else SHORT_RUNS if first < SHORT else RUNS


def measured(path, known, *more):
    """Runs each program on a file in turn, with `more` arguments, and returns the best runs."""
    runs = {program: [] for program in known}
    for _ in range(SHORT_RUNS):
        for program, words in known.items():
            taken = runs[program]
            if len(taken) < runs_wanted(taken):
                taken.append(measure([*words, path, *more]))
    return {program: best(taken) for program, taken in runs.items()}


def cells_of(found):
    ours = next(iter(found.values()))
    for i, value in enumerate(found.values()):
        if value is None:
            yield "fails"
            continue
        shown = f"{value[0]:.{4 if value[0] < SHORT else 3}f} s, {value[1] / 1e6:.0f} MB"
        if i and ours:
            shown += f" ({ours[0] / value[0] if value[0] else math.inf:.2f})"
        yield shown


def objects_of(path):
    """Returns the number of objects in the trailer of a file."""
    return int.from_bytes(path.read_bytes()[-24:-16], "big")


def row(name, path, found, memory):
    ours = found.get("plist_tool")
    objects = objects_of(path)
    held = f"{max(0, ours[1] - memory) / objects:.0f}" if memory and ours and objects >= MANY else "-"
    print(f"| {name} | {path.stat().st_size:,} | " + " | ".join(cells_of(found)) + (f" | {held} |" if memory else " |"), flush=True)


def heading(words):
    print("| " + " | ".join(words) + " |\n|" + "---|" * len(words))


def print_growth(points):
    print("\nGrowth of the time of `plist_tool print`, from each size to the next:\n")
    for shape, found in points.items():
        for (small, first), (large, last) in zip(found, found[1:]):
            if first > 0:
                print(f"- {shape}: exponent {math.log(last / first) / math.log(large / small):.2f} from {small:,} to {large:,}")


def print_table(path, sizes, known):
    # the memory that isn't for objects, measured with a file of few objects but many events, so
    # that the run is long enough for its memory to be read
    make(path, "doubling, 2^17 arrays")
    few = best([measure([*known["plist_tool"], path]) for _ in range(RUNS)])
    memory = (few or (0, 0))[1]
    heading(["shape", "bytes", *known, "bytes an object"])
    grown = {}
    for shape in SHAPES:
        for size in sizes:
            make(path, shape, size)
            found = measured(path, known)
            row(f"{shape}, {size} MB", path, found, memory)
            if found["plist_tool"]:
                grown.setdefault(f"{shape}, bytes", []).append((path.stat().st_size, found["plist_tool"][0]))
    for kind, family, counts in (("levels", LEVELS, (10**5, 10**6)), ("doubling, arrays", SHARING, (2**17, 2**20))):
        for shape, count in zip(family, counts):
            make(path, shape)
            found = measured(path, known)
            row(shape, path, found, memory)
            if found["plist_tool"]:
                grown.setdefault(kind, []).append((count, found["plist_tool"][0]))
    print_growth(grown)


def one_pass(once, often):
    """Returns the time of a pass, from runs of one and of more, and the memory of a run of one."""
    return None if once is None or often is None else ((often[0] - once[0]) / PASSES, once[1])


def print_passes(shape, path, known):
    once, often = measured(path, known, 1), measured(path, known, PASSES + 1)
    row(shape, path, {program: one_pass(once[program], often[program]) for program in known}, 0)


def print_all_passes(what, path, size, known):
    print(f"\n{what}, over bytes in memory, {size} MB, one pass of {PASSES}:\n")
    heading(["shape", "bytes", *known])
    for shape in SHAPES:
        make(path, shape, size)
        print_passes(shape, path, known)
    for shape in ("10^6 levels", "doubling, 2^20 arrays"):
        make(path, shape)
        print_passes(shape, path, known)


def calls_of(words, path):
    """Returns how often a program made each system call."""
    counts = path.with_name("calls")
    subprocess.run(["strace", "-f", "-c", "-o", counts, *words, path], stdout=subprocess.DEVNULL, check=True)
    lines = [line.split() for line in counts.read_text().splitlines()[2:]]
    return {line[-1]: int(line[3]) for line in lines if len(line) > 4 and line[3].isdigit() and line[-1] != "total"}


def print_calls(path, size, words):
    """Prints how many system calls `print` makes on each shape of settings."""
    if shutil.which("strace") is None:
        return
    print("\nSystem calls of `plist_tool print`:\n")
    heading(["shape", "bytes", "calls", "reads", "seeks"])
    for shape in SHAPES:
        if shape.startswith("settings"):
            make(path, shape, size)
            calls = calls_of(words, path)
            reads = sum(calls.get(name, 0) for name in ("read", "pread64", "readv"))
            print(f"| {shape} | {path.stat().st_size:,} | {sum(calls.values()):,} | {reads:,} | {calls.get('lseek', 0):,} |", flush=True)


def main(words):
    sizes = [int(word) for word in words] or [1, 10, 50]
    with tempfile.TemporaryDirectory() as name:
        folder = pathlib.Path(name)
        path = folder / "file.plist"
        crate = peer(folder)
        known = dict(programs(crate))
        print_table(path, sizes, known)
        print_calls(path, max(sizes), known["plist_tool"])
        size = min(sizes, key=lambda size: abs(size - 10))
        for what, call, program, name in (
                ("Items with texts of their own", "BinaryReader", items_program, "items"),
                ("Values", "Value::from_reader", values_program, "values")):
            ours = program(folder)
            if ours:
                theirs = {"the crate": [crate, name]} if crate else {}
                print_all_passes(what, path, size, {call: [ours], **theirs})


if __name__ == "__main__":
    if sys.argv[1:2] == ["--make"]:
        made(*sys.argv[2:])
    else:
        main(sys.argv[1:])
