#!/usr/bin/env python3
"""Measures how long it takes to build, change and check this repository.

    tests/outside/times.py [first] [function] [user] [gate]

Each word is a measurement, in a fresh clone of HEAD. Without words all but the gate are made:
first     ./plist_tool print of an example, if nothing was proved before: until the first line, which
          is printed by the unproved program, and until the end, when the program is proved
function  a check of some crates after one function was changed
user      a check of the README's first program, as a crate of its own over the built libraries
gate      .ci/run, if nothing was proved before

Each line has the wall time in seconds, and the processor time (user and system) of all processes. The
last column has the share of the machine's time that other virtual machines have stolen. If it is large,
only the processor time is of use. `rt` reuses what other checkouts on the same machine have proved. It
keeps this in the folder that `RT_KEPT` names, which is moved away for the measurements that start
without proofs.
"""
import os
import pathlib
import resource
import shutil
import subprocess
import sys
import tempfile
import time

TOP = pathlib.Path(__file__).resolve().parents[2]
KEPT = pathlib.Path(os.environ["RT_KEPT"]) if "RT_KEPT" in os.environ else None
FROM_NOTHING = {"first", "gate"}

# A line of a function, and another that does the same.
CHANGES = {
    "plist_decode": ("src/trailer.rt", "if end <= trailer =>", "if trailer >= end =>"),
    "plist_pairs": ("src/pairs.rt", "        self.keys.len()\n",
                    "        let count = self.keys.len();\n        count\n"),
}


def jiffies():
    """Returns how much processor time other virtual machines have stolen from this one, and the total."""
    numbers = [int(it) for it in open("/proc/stat", encoding="utf-8").readline().split()[1:9]]
    return numbers[7], sum(numbers)


class Measured:
    def __init__(self, what):
        self.what = what

    def __enter__(self):
        used = resource.getrusage(resource.RUSAGE_CHILDREN)
        self.began, self.used, self.jiffies = time.time(), used.ru_utime + used.ru_stime, jiffies()
        return self

    def __exit__(self, *_):
        used = resource.getrusage(resource.RUSAGE_CHILDREN)
        stolen, every = (now - was for now, was in zip(jiffies(), self.jiffies))
        spent = used.ru_utime + used.ru_stime - self.used
        wall = time.time() - self.began
        print(f"{self.what:40} {wall:8.1f} {spent:8.1f} {100 * stolen / max(every, 1):5.0f} %", flush=True)


def run(words, folder, **how):
    said = subprocess.run(words, cwd=folder, text=True, stdout=subprocess.PIPE, stderr=subprocess.STDOUT, **how)
    if said.returncode:
        print(said.stdout)
        sys.exit(f"{' '.join(words)} ended with status {said.returncode}")
    return said.stdout


def first(clone):
    """Measures the time until the first line, and until the end of the call."""
    with Measured("the program is proved and has run"):
        began = time.time()
        words = ["./plist_tool", "print", "examples/settings.plist"]
        with subprocess.Popen(words, cwd=clone, stdout=subprocess.PIPE, text=True) as ran:
            line = ran.stdout.readline()
            print(f"{'the first line, ' + line.strip():40} {time.time() - began:8.1f}", flush=True)
            ran.stdout.read()
        if ran.returncode or line != "StartDictionary 6\n":
            sys.exit(f"status {ran.returncode}, first line {line!r}")


def function(clone):
    for crate, (file, old, new) in CHANGES.items():
        folder, path = clone / "crates" / crate, clone / "crates" / crate / file
        run(["rt", "check", "--jobs", "1"], folder)
        text = path.read_text(encoding="utf-8")
        if text.count(old) != 1:
            sys.exit(f"{path}: the line to change occurs {text.count(old)} times")
        path.write_text(text.replace(old, new), encoding="utf-8")
        with Measured(f"{crate}, one function changed"):
            run(["rt", "check", "--jobs", "1"], folder)
        path.write_text(text, encoding="utf-8")
        run(["rt", "check", "--jobs", "1"], folder)


def user(clone):
    folder = clone / "crates" / "first"
    (folder / "src").mkdir(parents=True)
    shutil.copyfile(clone / "examples/first.rt.in", folder / "src/main.rt")
    with open(clone / "crates.txt", "a", encoding="utf-8") as file:
        file.write("first: plist\n")
    run(["rt", "lib", "--jobs", "1"], clone / "crates/plist")
    with Measured("the README's first program"):
        run(["rt", "check", "--jobs", "1"], folder)


def gate(clone):
    with Measured("the gate"):
        print(run([".ci/run"], clone).splitlines()[-1])


def main(words):
    words = words or ["first", "function", "user"]
    print(f"{'':40} {'wall':>8} {'processor':>8}  stolen")
    if KEPT is None and FROM_NOTHING & {*words}:
        sys.exit("RT_KEPT has to name the folder where the kit keeps proofs")
    aside = KEPT.with_name(KEPT.name + ".aside") if KEPT else None
    if aside and KEPT.exists() and FROM_NOTHING & {*words}:
        KEPT.rename(aside)
    try:
        with tempfile.TemporaryDirectory(prefix="times-") as room:
            clone = pathlib.Path(room) / "clone"
            run(["git", "clone", "-q", str(TOP), str(clone)], room)
            if "first" in words:
                first(clone)
            if "function" in words:
                function(clone)
            if "user" in words:
                user(clone)
            if "gate" in words:
                clean = pathlib.Path(room) / "clean"
                run(["git", "clone", "-q", str(TOP), str(clean)], room)
                gate(clean)
    finally:
        if aside and aside.exists():
            shutil.rmtree(KEPT, ignore_errors=True)
            aside.rename(KEPT)


if __name__ == "__main__":
    main(sys.argv[1:])
