#!/usr/bin/env python3
"""Compiles the examples of the crates' READMEs.

    tests/outside/readmes.py [FOLDER]

Each block of Rust in crates/*/README.md, with its imports, becomes a module of a program that uses all
libraries, in a copy of this repository in FOLDER (by default a new one). `rt try` compiles and runs the
program, whose `main` does nothing. The status is 1 if it doesn't compile.
"""
import pathlib
import re
import shutil
import subprocess
import sys
import tempfile

TOP = pathlib.Path(__file__).resolve().parents[2]
ROOT = """#![tactic(auto)]

{modules}
use std::process::ExitCode;

fn main(_rt: HostRuntime) -> ExitCode {{
    ExitCode::SUCCESS
}}
"""


def blocks():
    """Returns the blocks, by the names of their modules."""
    found = {}
    for readme in sorted(TOP.glob("crates/*/README.md")):
        crate = readme.parent.name
        for index, block in enumerate(re.findall(r"```rust\n(.*?)```", readme.read_text(), re.S)):
            found[f"{crate}_{index}"] = block
    return found


def main():
    folder = pathlib.Path(sys.argv[1] if len(sys.argv) > 1 else tempfile.mkdtemp())
    for line in (TOP / "crates.txt").read_text().splitlines():
        crate = line.split(":")[0]
        if (TOP / "crates" / crate / "src/lib.rt").exists():
            shutil.copytree(TOP / "crates" / crate, folder / "crates" / crate,
                            ignore=shutil.ignore_patterns("out"), dirs_exist_ok=True)
    found = blocks()
    source = folder / "crates/readmes/src"
    source.mkdir(parents=True, exist_ok=True)
    for name, block in found.items():
        (source / f"{name}.rt").write_text(f"//! An example.\n\n{block}")
    modules = "".join(f"pub mod {name};\n" for name in found)
    (source / "main.rt").write_text(ROOT.format(modules=modules))
    libraries = sorted({re.sub(r"_\d+$", "", name) for name in found} | {"plist"})
    kept = [line for line in (TOP / "crates.txt").read_text().splitlines()
            if (folder / "crates" / line.split(":")[0]).exists()]
    (folder / "crates.txt").write_text(
        "\n".join(kept) + "\nreadmes: " + " ".join(libraries) + "\n")
    (folder / "HANDLES").write_text((TOP / "HANDLES").read_text())
    ran = subprocess.run(["rt", "try"], cwd=folder / "crates/readmes")
    print(f"{len(found)} examples: status {ran.returncode}")
    return 1 if ran.returncode else 0


if __name__ == "__main__":
    sys.exit(main())
