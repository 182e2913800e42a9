#!/usr/bin/env python3
"""Measures `ranges` on a file of a million versions, a tenth of them pre-releases, beside `grep` and `sort -V`.

    tools/growth/lines.py [PROGRAM]    PROGRAM: crates/ranges/out/ranges, as rt ci (or rt run in its crate) built it, if none is named

Run at the top of the project, by hand: the gate doesn't. For each command: the processor time in seconds, the middle of its runs, and the
largest memory in megabytes. The status is 1 where `grep` prints other lines than `ranges filter`."""
import os, pathlib, random, statistics, subprocess, sys, tempfile

TOP = pathlib.Path(__file__).resolve().parents[2]
LINES = 1_000_000
# The releases that `^1.2` matches.
PATTERN = r"^1\.([2-9]|[1-9][0-9]+)\.[0-9]+$"


def version(dice):
    release = f"{dice.randrange(5)}.{dice.randrange(30)}.{dice.randrange(100)}"
    return release if dice.randrange(10) else f"{release}-beta.{dice.randrange(20)}"


def run(command, source):
    """What the command prints, its processor time, and its memory."""
    with open(source) as given, tempfile.TemporaryFile() as printed:
        child = subprocess.Popen(command, stdin=given, stdout=printed)
        _, status, used = os.wait4(child.pid, 0)
        child.returncode = os.waitstatus_to_exitcode(status)
        if child.returncode not in (0, 1):
            sys.exit(f"{command[0]}: status {child.returncode}")
        printed.seek(0)
        return printed.read(), used.ru_utime + used.ru_stime, used.ru_maxrss // 1024


def measure(command, source, runs):
    found = [run(command, source) for _ in range(runs)]
    seconds = statistics.median(it[1] for it in found)
    print(f"{' '.join(command)}: {seconds:.2f} s, {max(it[2] for it in found)} MB, {found[0][0].count(bytes([10])):,} lines", flush=True)
    return found[0][0]


def main(program=str(TOP / "crates/ranges/out/ranges")):
    dice = random.Random(1)
    with tempfile.NamedTemporaryFile("w") as versions:
        versions.writelines(f"{version(dice)}\n" for _ in range(LINES))
        versions.flush()
        os.environ["LC_ALL"] = "C"
        matching = measure([program, "filter", "^1.2"], versions.name, 9)
        same = measure(["grep", "-E", PATTERN], versions.name, 9) == matching
        measure([program, "sort"], versions.name, 3)
        measure(["sort", "-V"], versions.name, 1)
    print("same lines" if same else "grep prints other lines than ranges filter")
    return 0 if same else 1


if __name__ == "__main__":
    sys.exit(main(*sys.argv[1:]))
