#!/usr/bin/env python3
"""Measures the calls beside those of the crate deno_semver: speed.py FOLDER [CARGO OPTION ..]

FOLDER has the sources of deno_semver. Both programs are built from examples/speed.rs and run in turn, fifteen times; a line has the
lowest time of each, in nanoseconds, and their ratio. The status is 1 if one is above 1. OUT is the folder of what is built, by default
bindings/out."""
import os
import pathlib
import subprocess
import sys

HERE = pathlib.Path(__file__).resolve().parent
OUT = pathlib.Path(os.environ.get("OUT", HERE.parent / "out")) / "rust-speed"
MANIFEST = """[package]
name = "{name}"
version = "0.1.0"
edition = "2021"
[dependencies]
deno_semver_proved = {{ package = "{package}", path = "{folder}" }}
[workspace]
"""


def build(name, package, folder, options):
    """The program `name` over a package."""
    crate = OUT / name
    (crate / "src").mkdir(parents=True, exist_ok=True)
    (crate / "src/main.rs").write_bytes((HERE / "examples/speed.rs").read_bytes())
    (crate / "Cargo.toml").write_text(MANIFEST.format(name=name, package=package, folder=folder))
    target = ["--target-dir", str(OUT / "target")]
    subprocess.run(["cargo", "build", "--release", "--quiet", *target, *options], cwd=crate, check=True)
    return OUT / "target/release" / name


def times(program):
    """The nanoseconds of each call."""
    lines = subprocess.run([program], check=True, capture_output=True, text=True).stdout.splitlines()
    return {name: float(time) for name, time in (line.split("\t") for line in lines)}


def main():
    if len(sys.argv) < 2:
        sys.exit(__doc__)
    original, options = pathlib.Path(sys.argv[1]).resolve(), sys.argv[2:]
    programs = [build("ours", "deno_semver_proved", HERE, options), build("original", "deno_semver", original, options)]
    runs = [[times(program) for program in programs] for _ in range(15)]
    print(f"{'ours':>8} {'original':>8} {'ratio':>6}")
    slow = []
    for name in runs[0][0]:
        ours, theirs = (min(run[n][name] for run in runs) for n in (0, 1))
        print(f"{ours:8.1f} {theirs:8.1f} {ours / theirs:6.2f}  {name}")
        slow += [name] * (ours > theirs)
    if slow:
        sys.exit(f"slower than deno_semver: {', '.join(slow)}")


if __name__ == "__main__":
    main()
