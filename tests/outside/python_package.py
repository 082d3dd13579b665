"""Builds the Python package of bindings/python for the scripts that import it."""
import atexit
import pathlib
import shutil
import sys
import tempfile

SOURCE = pathlib.Path(__file__).resolve().parents[2] / "bindings/python"


def build():
    """Builds the package in a folder of its own, from which it is imported, and returns the module."""
    folder = tempfile.mkdtemp()
    atexit.register(shutil.rmtree, folder, ignore_errors=True)
    sys.path.insert(0, str(SOURCE))
    import build_backend
    build_backend.copy_package(folder)
    sys.path.insert(0, folder)
    import sizhetom
    return sizhetom
