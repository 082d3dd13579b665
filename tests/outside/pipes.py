#!/usr/bin/env python3
"""Runs `plist_tool convert` to a pipe, to a named pipe, and to devices.

    tests/outside/pipes.py [PROGRAM]

All bytes must come through a pipe, with status 0, although a pipe can't be synced. For a device that
is full the status must be 1. The devices are a null device and a full one of the script's own, so
that a program that removes OUT can't remove those of the system. Only root can make them, so anyone
else doesn't try them.
"""
import os
import pathlib
import stat
import subprocess
import sys
import tempfile
import threading

TOP = pathlib.Path(__file__).resolve().parent.parent.parent
PROGRAM = sys.argv[1] if sys.argv[1:] else TOP / "crates/plist_tool/out/plist_tool"


def convert(source, target, **options):
    return subprocess.run([PROGRAM, "convert", source, target], stderr=subprocess.PIPE, **options)


def through_named_pipe(source, folder):
    """Returns the status, and the bytes that came out of a named pipe."""
    pipe = folder / "pipe"
    os.mkfifo(pipe)
    found = []
    reader = threading.Thread(target=lambda: found.append(pipe.read_bytes()))
    reader.start()
    status = convert(source, pipe).returncode
    reader.join()
    return status, found[0]


def device(folder, name, minor):
    """Makes the memory device with this number: 3 discards all bytes, and 7 is always full."""
    path = folder / name
    os.mknod(path, 0o600 | stat.S_IFCHR, os.makedev(1, minor))
    return path


def try_devices(source, folder):
    """Converts to the devices, and returns whether they could be made and opened."""
    try:
        null, full = device(folder, "null", 3), device(folder, "full", 7)
        null.open("wb").close()
    except PermissionError:
        return False
    assert convert(source, null).returncode == 0
    ran = convert(source, full)
    assert ran.returncode == 1 and ran.stderr.startswith(b"Error: Io"), ran
    return True


def main():
    with tempfile.TemporaryDirectory() as name:
        folder = pathlib.Path(name)
        source = folder / "in.plist"
        source.write_text("(" + ", ".join(f'"text {n}"' for n in range(50_000)) + ")")
        plain = folder / "out.plist"
        assert convert(source, plain).returncode == 0
        whole = plain.read_bytes()
        assert len(whole) > 10 * 65_536 and whole.startswith(b"bplist00")
        assert through_named_pipe(source, folder) == (0, whole)
        piped = convert(source, "/dev/stdout", stdout=subprocess.PIPE)
        assert (piped.returncode, piped.stdout) == (0, whole)
        tried = try_devices(source, folder)
    print(f"{len(whole)} bytes came through both pipes; {'the' if tried else 'no'} devices were tried")


if __name__ == "__main__":
    main()
