#!/usr/bin/env python3
"""Compares the bindings for C, Rust and Python with `plist_tool`, and tests them on their own.

Mutated and random files, as `fuzz.py` has them, are read by a program in each language
(`tests/outside/bindings`), many in one process. They must print what `plist_tool print` prints, return
the errors of `plist_tool convert`, and write the files that it writes. For that, all programs are
compared with the second reader and writer (`second.py`), which also answers what `plist_tool` can't:
the events of an ASCII file, and, extended here, a file in which equal collections are stored once. If
the crate `plist` is installed (librust-plist-dev), it must read the same value of a file and of what
the Rust crate writes of it.

`bindings/guarded.c` calls the functions with unreadable pages around their arrays, and with random
limits and capacities. `bindings/tables.py` compares the numbers of the header with the enums of
`plist_base`. `make check` of `bindings/c`, `cargo test` of `bindings/rust`, the tests of
`bindings/python` and `plistlib_tests.py` run, too.

Usage: bindings.py [FILES [SEED [WORKERS]]]      100000 files, and as many workers as processors

Needs the archive libplist_c.a, a C compiler and cargo. The variables SIZHETOM_LIB and SIZHETOM_HEAP
name the folders of the archives, if they aren't where they are built, and PLIST_TOOL names the program.
If the program, the package for Python or the crate `plist` is missing, it is left out, and the script
says so. The status is 1 if anything differs.
"""
import collections
import functools
import itertools
import multiprocessing
import os
import pathlib
import random
import resource
import struct
import subprocess
import sys
import tempfile
from concurrent import futures

import bounded
import mutations
import second

HERE = pathlib.Path(__file__).resolve().parent
TOP = HERE.parents[1]
PROGRAM = pathlib.Path(os.environ.get("PLIST_TOOL") or TOP / "crates/plist_tool/out/plist_tool")
DRIVERS, BINDINGS = HERE / "bindings", TOP / "bindings"
sys.path.insert(0, str(DRIVERS))
import tables  # noqa: E402
MOST_ITEMS = 3000
BATCH = 500
# the memory that a program may use which reads a file of too many events
ROOM = 1 << 28
# what a program answers for a file; that in Python has only the first three
ANSWERS = ("standard output", "standard error", "the error of a value", "the file", "the shared file")
COUNTS = {"C": 5, "Rust": 5, "Python": 3}


# ---- building

def run(words, folder=None, **more):
    return subprocess.run([str(word) for word in words], cwd=folder, check=True, **more)


def kit():
    """Returns the folder of the kit's archive."""
    page = subprocess.run(["rt", "doc"], capture_output=True, text=True, check=True).stdout.strip()
    return pathlib.Path(page).parent / "c"


def archives():
    """Returns the paths of the two archives."""
    proved = pathlib.Path(os.environ.get("SIZHETOM_LIB") or TOP / "crates/plist_c/out")
    heap = pathlib.Path(os.environ.get("SIZHETOM_HEAP") or kit())
    return [proved / "libplist_c.a", heap / "liblibc_c.a"]


def compiled(folder, name):
    """Compiles a program in C of `bindings`, and returns its path."""
    program = folder / name
    run(["cc", "-std=gnu11", "-O2", "-Wall", "-Wextra", "-Werror", f"-I{BINDINGS}/c", f"-I{BINDINGS}/c/examples",
         "-o", program, DRIVERS / f"{name}.c", *archives(), "-lm"])
    return program


def cargo(folder, *words):
    target = {**os.environ, "CARGO_TARGET_DIR": str(folder / "target")}
    return ["cargo", *words, "--offline", "--quiet"], target


# The compiled programs: those that answer for each file, by their language; the one with unreadable
# pages; and the one over the crate `plist`, or None.
Programs = collections.namedtuple("Programs", "commands guarded beside")


def built_beside(folder):
    """Builds the program over the crate `plist` as Debian packages it, or returns None."""
    registry = ["--config", 'source.crates-io.replace-with="debian"',
                "--config", 'source.debian.directory="/usr/share/cargo/registry"']
    words, variables = cargo(folder, "build", "--release", *registry)
    ended = subprocess.run(words, cwd=DRIVERS / "beside", env=variables, capture_output=True)
    if ended.returncode == 0:
        return folder / "target/release/beside"
    print("the crate plist isn't installed")
    return None


def built(folder):
    """Builds the programs."""
    commands = {"C": [compiled(folder, "each")]}
    words, variables = cargo(folder, "build", "--release")
    run(words, DRIVERS / "each", env=variables)
    commands["Rust"] = [folder / "target/release/each"]
    if (BINDINGS / "python/build_backend.py").exists():
        run([sys.executable, BINDINGS / "python/build_backend.py", folder / "python"])
        commands["Python"] = ["env", f"PYTHONPATH={folder / 'python'}:{BINDINGS / 'python/examples'}",
                              sys.executable, DRIVERS / "each.py"]
    else:
        print("there is no package for Python")
    return Programs(commands, compiled(folder, "guarded"), built_beside(folder))


def run_their_own_tests(folder):
    run(["make", "--quiet", "-C", BINDINGS / "c", "check"])
    words, variables = cargo(folder, "test")
    run(words, BINDINGS / "rust", env=variables, stdout=subprocess.DEVNULL)
    if (folder / "python").exists():
        package = {**os.environ, "PYTHONPATH": str(folder / "python")}
        run([sys.executable, "-m", "unittest", "discover", "-q", "-s", BINDINGS / "python/tests"], env=package)
    if (HERE / "plistlib_tests.py").exists():
        run([sys.executable, HERE / "plistlib_tests.py"])
    print("the tests of each binding passed")


def doubling(levels):
    """Returns a file of arrays, each of which has the next one twice."""
    objects = b"".join(bytes([0xA2, i + 1, i + 1]) for i in range(levels)) + b"\xa0"
    table = bytes(8 + 3 * i for i in range(levels + 1))
    numbers = struct.pack(">QQQ", levels + 1, 0, 8 + len(objects))
    return second.MAGIC + objects + table + bytes(6) + b"\1\1" + numbers


def ended_within(words, room):
    """Returns how a program ended that may use this many bytes of memory."""
    bound = lambda: resource.setrlimit(resource.RLIMIT_AS, (room, room))  # noqa: E731
    return subprocess.run([str(word) for word in words], preexec_fn=bound, capture_output=True)


def run_out_of_memory(folder):
    """Lets the examples read a file of 2^42 events without limits, which ends when memory is exhausted."""
    path = folder / "doubling.plist"
    path.write_bytes(doubling(40))
    words, variables = cargo(folder, "build", "--release", "--example", "print")
    run(words, BINDINGS / "rust", env=variables)
    expected = {BINDINGS / "c/out/print": (2, b""),
                folder / "target/release/examples/print": (1, b"Error: OutOfMemory\n")}
    for program, (status, error) in expected.items():
        ended = ended_within([program, path], ROOM)
        if (ended.returncode, ended.stderr) != (status, error):
            raise ValueError(f"{program} ended with {ended.returncode} and {ended.stderr!r} when memory was exhausted")
    print("the examples ended as they should when memory was exhausted")


def run_tests(folder):
    run_their_own_tests(folder)
    run_out_of_memory(folder)


# ---- the expected answers

class SharedWriting(second.Writing):
    """Like `second.Writing`, but equal collections have one number."""

    def __init__(self, value):
        self.names = {}
        super().__init__(value)

    def name_of(self, value):
        """Returns a number that two values share only if they are equal."""
        if isinstance(value, dict):
            content = ("dictionary", *((key, self.name_of(child)) for key, child in value.items()))
        elif isinstance(value, list):
            content = ("array", *map(self.name_of, value))
        else:
            content = value
        return self.names.setdefault(content, len(self.names))

    def number_for(self, child):
        if isinstance(child, tuple):
            return super().number_for(child)
        name = self.name_of(child)
        if name not in self.numbers:
            self.count += 1
            self.numbers[name] = self.count - 1
        return self.numbers[name]

    def place(self, root, number_of_root):
        # The root can't be among its own items, so its number needs no entry.
        super().place(root, number_of_root)
        placed, order = set(), []
        for number, one in self.order:
            if number not in placed:
                placed.add(number)
                order.append((number, one))
        self.order = order


def shared_file_of(value):
    """Returns the binary property list of a value in which equal collections are stored once."""
    return second.file_of(value, SharedWriting)


def repeats_a_key(items):
    """Returns whether a dictionary of these items, which are those of a value, has a key twice."""
    open_ones = []
    for item in items:
        if item[0] == "EndCollection":
            open_ones.pop()
        elif open_ones and open_ones[-1] is not None and not open_ones[-1][1]:
            keys, _ = open_ones[-1]
            if item[1] in keys:
                return True
            keys.add(item[1])
            open_ones[-1] = keys, True
            continue
        if open_ones and open_ones[-1] is not None:
            open_ones[-1] = open_ones[-1][0], False
        if item[0] in ("StartArray", "StartDictionary"):
            open_ones.append((set(), False) if item[0] == "StartDictionary" else None)
    return False


def line(fault):
    return f"Error: {fault.text}\n".encode()


class Case:
    """A file, and the answers of the second reader and writer."""

    def __init__(self, folder, data):
        self.data, self.is_binary = data, data.startswith(second.MAGIC)
        self.items = second.items_of_input(data, MOST_ITEMS)
        if len(self.items) > MOST_ITEMS:
            raise second.TooMany
        self.source, self.made, self.shown, self.error, self.told = (
            folder / name for name in ("in", "made", "shown", "error", "told"))
        folder.mkdir(exist_ok=True)
        self.source.write_bytes(data)
        self.made.unlink(missing_ok=True)

    def runs(self):
        """Returns the runs of `plist_tool`, whose command print reads only binary files."""
        if self.is_binary:
            yield [PROGRAM, "print", self.source], 0, 60, self.shown, self.error
        yield [PROGRAM, "convert", self.source, self.made], 0, 60, "/dev/null", self.told

    def found_by_program(self):
        """Returns the answers of `plist_tool`, with None for what it can't answer."""
        printed = [self.shown.read_bytes(), self.error.read_bytes()] if self.is_binary else [None, None]
        made = self.made.read_bytes() if self.made.exists() else b""
        return [*printed, self.told.read_bytes(), made, None]

    def printed(self):
        """Returns what has to be printed to standard output and to standard error."""
        lines = []
        for item in self.items:
            if isinstance(item, second.Fault):
                return "".join(lines).encode(), line(item)
            lines.append(second.line_of(item) + "\n")
        return "".join(lines).encode(), b""

    def written(self):
        """Returns the error of reading the file as a value, and the files that have to be written."""
        try:
            value = second.value_of(self.items)
        except second.Fault as fault:
            return line(fault), b"", b""
        return b"", second.file_of(value), shared_file_of(value)

    @functools.cached_property
    def wanted(self):
        return [*self.printed(), *self.written()]

    @functools.cached_property
    def repeats_a_key(self):
        return not self.wanted[2] and repeats_a_key(self.items)


# ---- the comparison

def packed(files):
    """Returns files in the form in which the programs read them."""
    return b"".join(struct.pack("=I", len(data)) + data for data in files)


def answers_of(command, cases, count):
    """Runs a program on files, and returns its answers for each of them."""
    output = run(command, input=packed(case.data for case in cases), stdout=subprocess.PIPE).stdout
    answers, at = [], 0
    while at < len(output):
        length, = struct.unpack_from("=I", output, at)
        answers.append(output[at + 4:at + 4 + length])
        at += 4 + length
    if len(answers) != count * len(cases):
        raise ValueError(f"{command[0]} has written {len(answers)} answers for {len(cases)} files")
    return [answers[i:i + count] for i in range(0, len(answers), count)]


def compare(case, name, found, counts):
    """Compares the answers of a program. It need not have all of them, and C writes keys twice."""
    for what, one, other in zip(ANSWERS, found, case.wanted):
        if one is None:
            continue
        if name == "C" and what.endswith("file") and case.repeats_a_key:
            counts[f"{name}: {what}, not compared since a key is repeated"] += 1
            continue
        counts[f"{name}: {what}"] += 1
        if one != other:
            counts["different"] += 1
            print(f"{name}, {what} of {case.data.hex()}: {one!r} in place of {other!r}", flush=True)


def compare_beside(program, pairs, counts):
    """Lets the crate `plist` read files and what the crate `sizhetom` has written of them."""
    output = run([program], input=packed(itertools.chain(*pairs)), stdout=subprocess.PIPE).stdout
    for (data, _), answer in zip(pairs, output.decode().split(), strict=True):
        counts[f"values of the crate plist: {answer}"] += 1
        if answer == "differ":
            counts["different"] += 1
            print(f"the crate plist reads another value of what was written of {data.hex()}", flush=True)


def corpus():
    """Yields the files of the repository."""
    for pattern in ("examples/*.plist", "crates/*/data/*.plist"):
        for path in sorted(TOP.glob(pattern)):
            yield path.read_bytes()


class Worker:
    """Makes files, and compares what the programs answer for them."""

    def __init__(self, folder, seed, programs):
        self.folder, self.programs = folder, programs
        self.chance, self.counts = random.Random(seed), collections.Counter()
        self.starter = bounded.Starter(folder)

    def some_files(self, count):
        """Yields lists of mutated files."""
        for start in range(0, count, BATCH):
            if start % (20 * BATCH) == 0:
                pool = [data for _ in range(20) for data in mutations.from_others(self.chance, self.folder)]
            yield [mutations.some_file(self.chance, pool) for _ in range(min(BATCH, count - start))]

    def cases_of(self, files):
        for number, data in enumerate(files):
            try:
                yield Case(self.folder / str(number), data)
            except second.TooMany:
                self.counts["too many items, left out"] += 1

    def compare_program(self, cases):
        for ended in self.starter.run_all([one for case in cases for one in case.runs()]):
            if ended.signal or ended.status not in (0, 1):
                raise ValueError(f"{PROGRAM} has ended with {ended}")
        for case in cases:
            compare(case, "plist_tool", case.found_by_program(), self.counts)

    def compare_bindings(self, cases):
        for name, command in self.programs.commands.items():
            answers = answers_of(command, cases, COUNTS[name])
            for case, found in zip(cases, answers):
                compare(case, name, found, self.counts)
            if name == "Rust" and self.programs.beside:
                pairs = [(case.data, found[3]) for case, found in zip(cases, answers) if found[3]]
                compare_beside(self.programs.beside, pairs, self.counts)

    def compare_files(self, files):
        cases = list(self.cases_of(files))
        self.counts["binary files"] += sum(case.is_binary for case in cases)
        self.counts["other files"] += sum(not case.is_binary for case in cases)
        if PROGRAM.exists():
            self.compare_program(cases)
        self.compare_bindings(cases)
        self.guard(cases)

    def guard(self, cases):
        """Reads and writes files between unreadable pages."""
        words = [self.programs.guarded, str(self.chance.randrange(1 << 32))]
        ended = subprocess.run(words, input=packed(case.data for case in cases), capture_output=True)
        if ended.returncode == 0:
            self.counts["calls between unreadable pages"] += int(ended.stdout)
            return
        self.counts["different"] += 1
        print(f"guarded ended with {ended.returncode}: {ended.stdout.decode()}{ended.stderr.decode()}", flush=True)


def work(words):
    count, seed, programs = words
    with tempfile.TemporaryDirectory() as name:
        worker = Worker(pathlib.Path(name), seed, programs)
        worker.compare_files(list(corpus()))
        for files in worker.some_files(count):
            worker.compare_files(files)
        worker.starter.close()
    return worker.counts


def main():
    given = [int(word) for word in sys.argv[1:]]
    files, seed, workers = given + [100_000, 1, os.cpu_count()][len(given):]
    counts = collections.Counter()
    if not PROGRAM.exists():
        print(f"{PROGRAM.name} isn't built, so it isn't compared")
    for text in tables.differences():
        counts["different"] += 1
        print(text)
    with tempfile.TemporaryDirectory() as name:
        folder = pathlib.Path(name)
        programs = built(folder)
        with multiprocessing.Pool(workers) as pool, futures.ThreadPoolExecutor(1) as own:
            tests = own.submit(run_tests, folder)
            shares = [(files // workers + (i < files % workers), seed * 1000 + i, programs) for i in range(workers)]
            counts += sum(pool.map(work, shares, chunksize=1), collections.Counter())
            tests.result()
    for name, count in sorted(counts.items()):
        print(f"{name}: {count}")
    return 1 if counts["different"] else 0


if __name__ == "__main__":
    sys.exit(main())
