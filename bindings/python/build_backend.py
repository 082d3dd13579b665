#!/usr/bin/env python3
"""Builds the package: the hooks that pip calls (PEP 517), and a command.

    build_backend.py FOLDER

compiles the extension and puts it, with the modules of the package, into FOLDER/sizhetom. It needs a
C compiler, the header of `bindings/c`, the archive libplist_c.a and the kit's liblibc_c.a. The
archive is in the folder that SIZHETOM_LIB names, or in crates/plist_c/out of the repository. The
other one is in the folder that SIZHETOM_HEAP names, or in the kit, if its command `rt` is on the path.
"""
import base64
import hashlib
import os
import pathlib
import shlex
import shutil
import subprocess
import sys
import sysconfig
import tempfile
import zipfile

HERE = pathlib.Path(__file__).resolve().parent
NAME, VERSION = "sizhetom", "0.1.0"
ARCHIVE, HEAP = "libplist_c.a", "liblibc_c.a"
METADATA = f"""Metadata-Version: 2.1
Name: {NAME}
Version: {VERSION}
Summary: Reads and writes Apple's property lists, by readers and writers that are proved
License: MIT
Requires-Python: >=3.10
Description-Content-Type: text/markdown

"""


class Missing(SystemExit):
    """A file that the build needs is missing; the message says what to do."""


def archive():
    """Returns the path of the archive."""
    folder = os.environ.get("SIZHETOM_LIB") or HERE.parents[1] / "crates/plist_c/out"
    path = pathlib.Path(folder) / ARCHIVE
    if not path.exists():
        raise Missing(f"There is no {path}: build it by `tools/build plist_c`, or name its folder by SIZHETOM_LIB.")
    return path


def folder_of_kit():
    """Returns the folder of the kit, which has a folder `c`, or None if there is no command `rt`."""
    if shutil.which("rt") is None:
        return None
    page = subprocess.run(["rt", "doc"], capture_output=True, text=True).stdout.strip()
    return next((folder for folder in pathlib.Path(page).parents if (folder / "c" / HEAP).exists()), None)


def heap():
    """Returns the path of the kit's three functions that allocate memory."""
    kit = folder_of_kit()
    folder = os.environ.get("SIZHETOM_HEAP") or kit and kit / "c"
    path = folder and pathlib.Path(folder) / HEAP
    if not path or not path.exists():
        raise Missing(f"There is no {HEAP}: put the kit's command `rt` on the path, or name its folder by"
                      " SIZHETOM_HEAP.")
    return path


def words(*names):
    """Returns the words of these variables of Python's own build."""
    return [word for name in names for word in shlex.split(sysconfig.get_config_var(name) or "")]


def headers():
    """Returns the compiler's options for the headers."""
    return [f"-I{sysconfig.get_path('include')}", f"-I{HERE.parent / 'c'}"]


def compile_extension(folder, options=()):
    """Compiles the extension into a folder."""
    sources = sorted(str(path) for path in (HERE / "extension").glob("*.c"))
    extension = pathlib.Path(folder) / f"_sizhetom{sysconfig.get_config_var('EXT_SUFFIX')}"
    libraries = [str(archive()), str(heap()), "-lm", "-Wl,--exclude-libs,ALL"]
    subprocess.run(
        [*words("LDSHARED", "CFLAGS", "CCSHARED"), "-O2", "-fvisibility=hidden", "-Wall", "-Wextra", *options,
         *headers(), *sources, *libraries, "-o", str(extension)],
        check=True)


def copy_package(folder):
    """Puts the package, with its extension, into a folder."""
    package = pathlib.Path(folder) / NAME
    ignored = shutil.ignore_patterns("__pycache__", "*.so")
    shutil.copytree(HERE / "src" / NAME, package, ignore=ignored, dirs_exist_ok=True)
    compile_extension(package)


def tag():
    """Returns the wheel's tag: the interpreter, its binary interface and the platform."""
    interpreter = f"cp{sys.version_info.major}{sys.version_info.minor}"
    interface = "cp" + sysconfig.get_config_var("SOABI").split("-")[1]
    platform = sysconfig.get_platform().replace("-", "_").replace(".", "_")
    return f"{interpreter}-{interface}-{platform}"


def record_line(name, content):
    """Returns a file's line in the list of files."""
    digest = base64.urlsafe_b64encode(hashlib.sha256(content).digest()).rstrip(b"=").decode()
    return f"{name},sha256={digest},{len(content)}\n"


def build_wheel(wheel_directory, config_settings=None, metadata_directory=None):
    """Builds the wheel, and returns its name."""
    information = f"{NAME}-{VERSION}.dist-info"
    wheel = f"{NAME}-{VERSION}-{tag()}.whl"
    with tempfile.TemporaryDirectory() as folder:
        copy_package(folder)
        files = {str(path.relative_to(folder)): path.read_bytes()
                 for path in sorted(pathlib.Path(folder).rglob("*")) if path.is_file()}
    files[f"{information}/METADATA"] = (METADATA + (HERE / "README.md").read_text()).encode()
    files[f"{information}/WHEEL"] = (
        f"Wheel-Version: 1.0\nGenerator: build_backend\nRoot-Is-Purelib: false\nTag: {tag()}\n".encode())
    lines = [record_line(name, content) for name, content in files.items()]
    files[f"{information}/RECORD"] = "".join([*lines, f"{information}/RECORD,,\n"]).encode()
    with zipfile.ZipFile(pathlib.Path(wheel_directory) / wheel, "w", zipfile.ZIP_DEFLATED) as file:
        for name, content in files.items():
            file.writestr(name, content)
    return wheel


if __name__ == "__main__":
    if len(sys.argv) != 2:
        sys.exit(__doc__)
    copy_package(sys.argv[1])
