#!/usr/bin/env python3
"""Lets each allocation of the libraries' public calls fail in turn.

The program of `tests/calls` makes one call, or a few calls of one kind, between two marks. Between
them allocations fail: first a single one, and then all from that one on. The result and the state
afterwards have to be those of a run with enough memory, or `OutOfMemory` with the promised state;
`call_tables.py` has both. Calls that promise to allocate nothing run with every allocation failing,
and must not try one. Files whose sizes are false may take at most a hundred times their own size.

Usage: refused_calls.py

The kit runs the program unproved, with its checks of each access, in a copy of the crates. The script
needs a C compiler. It prints counts at the end, and has status 1 if a run does anything else.
"""
import collections
import os
import pathlib
import shutil
import subprocess
import sys
import tempfile

# writes no bytecode
sys.dont_write_bytecode = True
import call_tables

HERE = pathlib.Path(__file__).resolve().parent
CRATES = HERE.parent / "crates"
STANDS_ON = ("plist_base plist_binread plist_buffer plist_binwrite plist_share "
             "plist_ascii plist_reader plist_support plist plist_keyed plist_print plist_callers "
             "plist_uses hex")


def below(lines, names):
    """Returns these crates and all that they use, if `crates.txt` has lines for them."""
    found = {}
    for name in names:
        if name in lines:
            found.update(below(lines, lines[name].split()))
            found[name] = lines[name]
    return found


def output_of(folder, given):
    """Returns what the unproved program prints for these lines. It runs in a repository of its own."""
    every = (CRATES.parent / "crates.txt").read_text().splitlines()
    lines = dict(line.split(":", 1) for line in every if ":" in line and line[0] != "#")
    crates = below(lines, STANDS_ON.split())
    without = shutil.ignore_patterns("out")
    for name in crates:
        shutil.copytree(CRATES / name, folder / "crates" / name, ignore=without)
    crate = folder / "crates/calls"
    (crate / "src").mkdir(parents=True)
    (crate / "c").mkdir()
    shutil.copy(HERE / "calls/refuse.c", crate / "c")
    for file in (HERE / "calls").glob("*.rt.in"):
        shutil.copy(file, crate / "src" / file.stem)
    crates["calls"] = STANDS_ON
    listed = [f"{name}: {stands_on}\n" for name, stands_on in crates.items()]
    (folder / "crates.txt").write_text("".join(listed))
    (folder / "given").write_text(given)
    with open(folder / "given", encoding="utf-8") as file:
        done = subprocess.run(["rt", "try", "--seconds", "300"], cwd=crate, stdin=file, text=True,
                              stdout=subprocess.PIPE, stderr=subprocess.PIPE,
                              env={**os.environ, "RT_ALLOW_C": "calls"})
    if done.returncode or not done.stdout.endswith("\nall\n"):
        sys.exit(f"{done.stdout[-2000:]}{done.stderr}the calls ended with status {done.returncode}")
    return done.stdout.removesuffix("all\n")


def runs_of(output):
    """Returns the runs of each call: what was printed, and the numbers of allocations and bytes."""
    calls, told = [], []
    for line in output.splitlines():
        if line == ">":
            calls.append([])
        elif line.startswith("= "):
            count, asked = map(int, line[2:].split())
            calls[-1].append(("\n".join(told), count, asked))
            told = []
        else:
            told.append(line)
    return calls


class Calls:
    """The calls, the expected results, and the actual ones."""

    def __init__(self):
        self.lines, self.tests, self.names, self.swept = [], [], set(), set()
        self.all, self.most = collections.Counter(), 0

    def add(self, way, name, given, test):
        given = given.hex() if isinstance(given, bytes) else given
        self.names.add(name)
        self.lines.append(f"{way}\t{name}\t{given}\n")
        self.tests.append((f"{name} {given!r}", test))

    def bad(self, text):
        self.all["otherwise"] += 1
        print(text)

    def sweep(self, name, given, ample, wants, stops=False):
        """Lets each allocation fail alone, and then with all later ones; `wants` are results without memory.

        A call that stops at such an error makes no other allocation after it.
        """
        self.swept.add(name)
        self.add("sweep", name, given,
                 lambda call, runs: self.test_sweep(call, runs, ample, wants, stops))

    def test_sweep(self, call, runs, ample, wants, stops):
        found, requests, _ = next(runs)
        self.all["requests"] += requests
        if found != ample:
            self.bad(f"{call}, with enough memory: {found!r} for {ample!r}")
        for _ in ("alone", "with all later ones"):
            number, count = 0, 0
            while count >= number:
                number += 1
                found, count, _ = next(runs)
                if found == ample:
                    self.all["as with enough memory"] += count >= number
                elif count >= number and found in wants and not (stops and count > number):
                    self.all["OutOfMemory"] += 1
                else:
                    self.bad(f"{call}, request {number} of {requests}: {found!r}")

    def still(self, name, given, ample):
        """Lets all allocations fail. The call must make none."""
        self.add("still", name, given, lambda call, runs: self.test_still(call, runs, ample))

    def test_still(self, call, runs, ample):
        for found, requests, _ in (next(runs), next(runs)):
            if found != ample or requests:
                self.bad(f"{call} must allocate nothing: {found!r} for {ample!r}, {requests} requests")
        self.all["calls that allocate nothing"] += 1

    def bounded(self, name, file, ample):
        """All allocations together must have at most a hundred times as many bytes as the file."""
        self.add("once", name, file, lambda call, runs: self.test_bounded(call, runs, file, ample))

    def test_bounded(self, call, runs, file, ample):
        found, _, asked = next(runs)
        self.most = max(self.most, asked / len(file))
        if found != ample or asked > 100 * len(file):
            self.bad(f"{call}, {len(file)} bytes: {found!r} for {ample!r}, {asked} bytes of memory")
        self.all["files with false sizes"] += 1

    def within(self, name, given, ample, most):
        """All allocations together must have at most this many bytes."""
        self.add("once", name, given, lambda call, runs: self.test_within(call, runs, ample, most))

    def test_within(self, call, runs, ample, most):
        found, _, asked = next(runs)
        if found != ample or asked > most:
            self.bad(f"{call}: {found!r} for {ample!r}, {asked} bytes of memory, of at most {most}")
        self.all["calls that allocate little"] += 1

    def prints(self, name, given, wanted):
        """With enough memory, the call prints this."""
        self.add("once", name, given, lambda call, runs: self.test_prints(call, runs, wanted))

    def test_prints(self, call, runs, wanted):
        found, _, _ = next(runs)
        if found != wanted:
            self.bad(f"{call}: {found!r} for {wanted!r}")
        self.all["calls with enough memory"] += 1

    def counts(self, name, given, exact, most):
        """The call prints `ok` and numbers: first the exact ones, and then some that are at most so great."""
        self.add("once", name, given, lambda call, runs: self.test_counts(call, runs, exact, most))

    def test_counts(self, call, runs, exact, most):
        found, _, _ = next(runs)
        answer, *numbers = found.split(" ")
        numbers = list(map(int, numbers))
        split = len(exact)
        few = all(number <= bound for number, bound in zip(numbers[split:], most, strict=True))
        if answer != "ok" or numbers[:split] != exact or not few:
            self.bad(f"{call[:60]}: {found!r} for {exact} and at most {most}")
        self.all["calls that are counted"] += 1

    def look_at(self, calls):
        for (call, test), runs in zip(self.tests, calls, strict=True):
            runs = iter(runs)
            test(call, runs)
            if list(runs):
                self.bad(f"{call}: more runs")


def main():
    calls = Calls()
    call_tables.run(calls)
    with tempfile.TemporaryDirectory() as name:
        output = output_of(pathlib.Path(name), "".join(calls.lines))
    calls.look_at(runs_of(output))
    print(f"at most {calls.most:.0f} bytes of memory for each byte of a file with false sizes")
    told = ", ".join(f"{number} {what}" for what, number in sorted(calls.all.items()))
    print(f"{len(calls.names)} kinds of calls, {len(calls.swept)} of them with allocations that fail: {told}")
    return 1 if calls.all["otherwise"] else 0


if __name__ == "__main__":
    sys.exit(main())
