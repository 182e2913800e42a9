#!/usr/bin/env python3
"""Proves and builds a program's object file or the C library for a processor, over the libraries below as `make` leaves them.

    packaging/object.py MADE

MADE is PROGRAM.o or libsemver_c.a in a folder that has the processor's name, such as out/aarch64/ranges.o. What the prover prints is
kept in MADE.log. For x86-64 an object file that rt has left, which is the same, is copied."""
import pathlib
import shutil
import sys

TOP = pathlib.Path(__file__).resolve().parents[1]
sys.dont_write_bytecode = True
sys.path.insert(0, str(TOP / "bindings"))
import library


def build(crate, made, arch):
    print(f"Proving and building {made.name} for {arch}: two minutes, and seven for ranges.", flush=True)
    log = pathlib.Path(f"{made}.log")
    with log.open("w") as out:
        status = library.build_over(crate, made, "--target", f"{arch}-unknown-linux-gnu", stdout=out, stderr=out)
    if status:
        print(log.read_text(), end="", file=sys.stderr)
    return status


def main():
    made = pathlib.Path(sys.argv[1]).resolve()
    arch = made.parent.name
    name = made.stem[len("lib") :] if made.suffix == ".a" else made.stem
    crate = library.find(name)
    made.parent.mkdir(parents=True, exist_ok=True)
    left = crate.folder / "out" / made.name
    if arch == "x86_64" and library.is_newer(left, [*crate.below(), crate]):
        shutil.copyfile(left, made)
        return 0
    return build(crate, made, arch)


if __name__ == "__main__":
    sys.exit(main())
