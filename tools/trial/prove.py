#!/usr/bin/env python3
"""Proves one crate over the libraries below as `rt ci`, or this script, left them, and leaves its own library or program as they do. What
is proved is kept, so that after an edit only what changed is proved again; `rt ci` proves a changed crate from nothing.

    tools/trial/prove.py NAME [JOBS]

It prints what isn't proved; crates/NAME/out/proved.log has all of it."""
import pathlib
import re
import subprocess
import sys

TOP = pathlib.Path(__file__).resolve().parents[2]
sys.dont_write_bytecode = True
sys.path.insert(0, str(TOP / "bindings"))
import library


def main():
    crate = library.find(sys.argv[1])
    jobs = (sys.argv[2:] or ["2"])[0]
    kit, out = library.kit(), crate.folder / "out"
    is_program = (crate.folder / "src/main.rt").exists()
    command = [kit / "bin/rattle", "build", *crate.arguments(), "--jobs", jobs, "--incremental", out / "incremental"]
    if crate.is_static:
        command += ["--backend", "llvm", "--toolchain", kit / "toolchain", "-o", out / f"lib{crate.name}.a"]
    elif is_program:
        command += ["--backend", "llvm", "--toolchain", kit / "toolchain", "-o", out / f"{crate.name}.o"]
    else:
        command += ["-o", crate.rlib]
        crate.rlib.parent.mkdir(parents=True, exist_ok=True)
    out.mkdir(exist_ok=True)
    with open(out / "proved.log", "w+") as log:
        status = subprocess.run(command, cwd=crate.folder, stdout=log, stderr=subprocess.STDOUT).returncode
        log.seek(0)
        print("".join(line for line in log if re.search(r"error|not proved|^logic=", line)), end="")
    if status == 0 and is_program:
        linked = [kit / "bin/rattle-link", "--target", "x86_64-unknown-linux-gnu", "--toolchain", kit / "toolchain", "-o", out / crate.name]
        archives = [kit / "c/libos_c.a", kit / "c/liblibc_c.a"]
        status = subprocess.run([*linked, out / f"{crate.name}.o", *archives]).returncode
    return status


if __name__ == "__main__":
    sys.exit(main())
