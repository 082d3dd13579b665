#!/usr/bin/env python3
"""Runs calls and commands on property lists of a million levels, under the usual call stack.

The program in `tests/outside/deep` makes one call of the libraries per run, and `plist_tool` reads,
prints and converts files that this script makes. Each run has 8 MiB of call stack, whatever the
shell allows. The output is compared with what the files contain, and the time of each run is
printed.

Then the same calls and commands run on a few levels, and the script measures how small their call
stack may be. None may need more than 250 KiB.

Usage: deep.py [LEVELS [PROGRAM]]      LEVELS is a multiple of 4, 1000000 by default

If PROGRAM isn't named, `tests/outside/deep` is proved and built first, by the kit's `rt` in a copy of
the crates. Needs the built `plist_tool`. The status is 1 if a run fails.
"""
import pathlib
import resource
import shutil
import subprocess
import sys
import tempfile
import time

HERE = pathlib.Path(__file__).resolve().parent
CRATES = HERE.parents[1] / "crates"
TOOL = CRATES / "plist_tool/out/plist_tool"
SETTINGS, ARCHIVE = (CRATES.parent / "examples" / name for name in ("settings.plist", "archive.plist"))
STACK = 8 << 20
# how many KiB of call stack a run on a few levels may take
SMALL_STACK, LEVELS = 250, 20
# the address space in which twenty values are made one after the other; each needs a fifth of it
ROOM = 2 << 30


def program(folder):
    """Proves and builds the program in a repository of its own, and returns its path."""
    every = (CRATES.parent / "crates.txt").read_text().splitlines()
    above = ("plist_callers", "plist_uses", "plist_print", "plist_commands", "plist_tool", "plist_vectors",
             "plist_examples", "plist_program_tests", "#")
    lines = [line for line in every if line.strip() and not line.startswith(above)]
    root = folder / "repository"
    for name in [line.split(":")[0].split()[0] for line in lines]:
        shutil.copytree(CRATES / name, root / "crates" / name,
                        ignore=shutil.ignore_patterns("incremental"))
    source = root / "crates/deep/src"
    source.mkdir(parents=True)
    shutil.copy(HERE / "deep/main.rt.in", source / "main.rt")
    lines.append("deep: plist_base plist plist_share plist_keyed")
    (root / "crates.txt").write_text("\n".join(lines) + "\n")
    subprocess.run(["rt", "run", "--", "4", "make"], cwd=source.parent, stdout=sys.stderr)
    return source.parent / "out/deep"


def binary(levels):
    """Returns a file of nested arrays, of which the innermost is empty."""
    objects = b"".join(b"\xa1" + (i + 1).to_bytes(4, "big") for i in range(levels - 1)) + b"\xa0"
    table = b"".join((8 + 5 * i).to_bytes(4, "big") for i in range(levels))
    end = 8 + len(objects)
    trailer = bytes(6) + b"\4\4" + levels.to_bytes(8, "big") + bytes(8) + end.to_bytes(8, "big")
    return b"bplist00" + objects + table + trailer


def run(*words, room=resource.RLIM_INFINITY, stack=STACK, wanted=0):
    """Returns what a command printed and its time, or None and its status if that isn't the expected one."""
    def bound():
        resource.setrlimit(resource.RLIMIT_STACK, (stack, stack))
        resource.setrlimit(resource.RLIMIT_AS, (room, room))
    start = time.monotonic()
    answer = subprocess.run([str(word) for word in words], stdout=subprocess.PIPE,
                            stderr=subprocess.DEVNULL, env={}, preexec_fn=bound)
    seconds = time.monotonic() - start
    if answer.returncode != wanted:
        return None, f"status {answer.returncode}"
    return answer.stdout, f"{seconds:.2f} s"


def least_stack(*words, wanted=0):
    """Returns the least call stack, in KiB, with which a command ends with the wanted status."""
    fails, works = 0, STACK >> 10
    while works - fails > 1:
        middle = (fails + works) // 2
        printed, _ = run(*words, stack=middle << 10, wanted=wanted)
        fails, works = (middle, works) if printed is None else (fails, middle)
    return works


def nested_events(levels):
    """Returns how many events the program's value has: starts, ends, keys and other items."""
    return 2 * levels + levels // 4 + 3 * (levels // 4) + 1


def answers(levels):
    """Returns what the program must print for each call on this many levels."""
    calls = ("make", "clone", "equal", "write", "share")
    events = {call: nested_events(levels) for call in calls}
    events["text"] = 2 * levels + 1
    events["archive"] = 3 * (levels - 1) + 1
    events["refused"] = 1
    events["let go"] = 1
    return {call: f"{count}\n".encode() for call, count in events.items()}


def files(folder, levels):
    """Returns a binary and an ASCII file of this many levels, and what `print` prints for them."""
    deep, flat = folder / "binary", folder / "ASCII"
    deep.write_bytes(binary(levels))
    flat.write_bytes(b"(" * levels + b")" * levels)
    starts = b"StartArray 1\n" * (levels - 1) + b"StartArray 0\n"
    return deep, flat, starts + b"EndCollection\n" * levels


def few_levels(folder, built):
    """Yields the arguments of each call and command on a few levels, and the expected status."""
    deep, flat, _ = files(folder, LEVELS)
    for call in answers(LEVELS):
        yield call, (built, LEVELS, call), 0
    yield "files", (built, LEVELS, "files", folder / "again"), 0
    for source in (deep, flat, SETTINGS):
        name, is_binary = source.name, source != flat
        yield f"plist_tool print, {name}", (TOOL, "print", source), 0 if is_binary else 1
        yield f"plist_tool convert, {name}", (TOOL, "convert", source, folder / "again"), 0
        yield f"plist_tool keyed, {name}", (TOOL, "keyed", source, "root"), 1
    yield "plist_tool keyed, an archive", (TOOL, "keyed", ARCHIVE, "root"), 0
    yield "plist_tool print, no file", (TOOL, "print", folder / "none"), 1
    yield "plist_tool convert, no file", (TOOL, "convert", folder / "none", folder / "again"), 1
    yield "plist_tool without words", (TOOL,), 2


def main():
    levels = int(sys.argv[1]) if len(sys.argv) > 1 else 1_000_000
    bad = 0

    def tell(name, right, how):
        nonlocal bad
        bad += not right
        print(f"{name}: {'' if right else 'UNEXPECTED, '}{how}", flush=True)

    def expect(name, answer, wanted):
        shown, how = answer
        tell(name, shown == wanted, how)

    with tempfile.TemporaryDirectory() as name:
        folder = pathlib.Path(name)
        built = pathlib.Path(sys.argv[2]) if len(sys.argv) > 2 else program(folder)
        again = folder / "again"
        for call, wanted in answers(levels).items():
            expect(call, run(built, levels, call), wanted)
        wanted = answers(levels)["make"]
        expect("often", run(built, levels, "often", room=ROOM), wanted)
        expect("files", run(built, levels, "files", again), wanted)
        deep, flat, lines = files(folder, levels)
        expect("plist_tool print", run(TOOL, "print", deep), lines)
        for source in (deep, flat):
            expect(f"plist_tool convert, {source.name}", run(TOOL, "convert", source, again), b"")
            expect("plist_tool print of what it made", run(TOOL, "print", again), lines)
        for name, words, status in few_levels(folder, built):
            least = least_stack(*words, wanted=status)
            tell(f"call stack of {name}", least <= SMALL_STACK, f"{least} KiB")
    return bad > 0


if __name__ == "__main__":
    sys.exit(main())
