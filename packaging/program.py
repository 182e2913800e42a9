#!/usr/bin/env python3
"""Proves and builds a program, crates/NAME/out/NAME, over the libraries below as `rt ci` leaves them, so that after a passed gate only the
program is proved. Where they aren't there, or a source is newer, `rt run` proves them, too.

    packaging/program.py NAME [ARGUMENT..]

The arguments are those with which `rt run` runs the program."""
import pathlib
import subprocess
import sys

TOP = pathlib.Path(__file__).resolve().parents[1]
sys.dont_write_bytecode = True
sys.path.insert(0, str(TOP / "bindings"))
import library


def link(crate, made):
    kit = library.kit()
    words = ["--target", "x86_64-unknown-linux-gnu", "--toolchain", kit / "toolchain", "-o", made, f"{made}.o", kit / "c/libos_c.a", kit / "c/liblibc_c.a"]
    return subprocess.run([kit / "bin/rattle-link", *words], cwd=crate.folder).returncode


def main():
    crate = library.find(sys.argv[1])
    made = crate.folder / "out" / crate.name
    if library.is_newer(made, [*crate.below(), crate]):
        return 0
    if all(library.is_newer(it.rlib, [*it.below(), it]) for it in crate.below()):
        return library.build_over(crate, pathlib.Path(f"{made}.o"), keeps=True, stdout=subprocess.DEVNULL) or link(crate, made)
    return subprocess.run(["rt", "run", "--", *sys.argv[2:]], cwd=crate.folder, stdout=subprocess.DEVNULL).returncode


if __name__ == "__main__":
    sys.exit(main())
