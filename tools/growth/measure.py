#!/usr/bin/env python3
"""Measures how the time of a call grows with texts that are made long on purpose, through conformance as rt ci (or rt run in
its crate) built it. Run at the top of the project, by hand: the gate doesn't.

    tools/growth/measure.py [TEXT]    TEXT: only the texts whose name holds it

For each text, in sizes of which each doubles the one before: the bytes of the largest, and the processor time of each, the shortest
of three runs, less that of a short text; what takes more than a second is run once. The time includes reading the row. The status
is 1 where a text takes much more than four times as long as one of a quarter of its size, or a call on lowest versions with four
times as many ranges."""
import json, os, pathlib, subprocess, sys, tempfile

TOP = pathlib.Path(__file__).resolve().parents[2]
PROGRAM = TOP / "crates/conformance/out/conformance"
RUNS = 3
# A time below this (in seconds) is noise; what grows by more than this where the text is four times as long grows too fast: what no
# longer fits into the processor's cache takes longer.
LEAST, MOST = 0.02, 6.5
# What takes longer than this (in seconds) is run once.
LONG = 1
BOTH = ("normal", "npm")
COUNTS = (50_000, 100_000, 200_000)
BYTES = (1 << 22, 1 << 23, 1 << 24)
RANGES = (200, 400, 800, 1_600, 3_200, 6_400, 12_800, 25_600)
REQUIREMENTS = (3_200, 6_400, 12_800, 25_600, 51_200)


def joined(piece, between):
    return lambda size: between.join([piece] * size)


def filled(letters, before="", after=""):
    return lambda size: before + letters * (size // len(letters)) + after


def identifiers(size):
    """A pre-release as long as the comparators after it, each of which is compared to it."""
    return ">=1.0.0-" + ".".join(["a"] * size) + " >=1.0.0" * (size // 4) + " <=0.9.0"


def letters(size):
    return ">=1.0.0-" + "a" * size + " >=0.0.0" * (size // 8)


def zeros(size):
    return ">=1.0.0-" + "0" * size + "2" + " >=1.0.0-1" * (size // 10)


def disjoint(major, qualifier=""):
    """Versions of which no two are the same, and `^9`, which all such texts have in common."""
    return lambda size: " || ".join(f"{major}.{minor}.0{qualifier}" for minor in range(size)) + " || ^9"


def nested(major, qualifier=""):
    """Ranges of which each holds the next."""
    return lambda size: " || ".join(f">={major}.{size - at}.0{qualifier} <{major}.{size + at}.0" for at in range(1, size + 1)) + " || ^9"


def crossing(major, qualifier=""):
    """Ranges between pre-releases of the same numbers, each of which begins and ends above the one before."""
    return lambda size: " || ".join(f">={major}.0.0-a.{at}{qualifier} <{major}.0.0-b.{at}" for at in range(size)) + " || ^9"


# What ought to be linear: the text's name, its grammars, what makes it, and its sizes.
LINEAR = (
    ("pieces `1`", BOTH, joined("1", " || "), COUNTS),
    ("pieces `foo`", BOTH, joined("foo", " || "), COUNTS),
    ("pieces of nothing", BOTH, joined("", "||"), COUNTS),
    ("comparators, blanks between", BOTH, joined(">=1.0.0", " "), COUNTS),
    ("comparators, commas between", BOTH, joined(">=1.0.0", ","), COUNTS),
    ("blanks alone", BOTH, filled(" "), BYTES),
    ("blanks after `1`", BOTH, filled(" ", "1"), BYTES),
    ("blanks after `>`", BOTH, filled(" ", ">"), BYTES),
    ("blanks after `||`", BOTH, filled(" ", "||"), BYTES),
    ("`~` before a number", ("npm",), filled("~", "", "1"), BYTES),
    ("`=` before `foo`", ("npm",), filled("=", "", "foo"), BYTES),
    ("`~v` and blanks before a number", ("npm",), filled(" ", "~v", "1"), BYTES),
    ("`> > ..`", ("npm",), filled("> "), BYTES),
    ("`1 - 1 - ..`", ("npm",), filled("1 - "), BYTES),
    ("blanks round a `,`", ("npm",), lambda size: "1" + " " * (size // 2) + "," + " " * (size // 2) + "2", BYTES),
    ("blanks round a `-`", ("npm",), lambda size: "1" + " " * (size // 2) + "-" + " " * (size // 2) + "2", BYTES),
    ("a pre-release of letters, comparators after it", BOTH, letters, COUNTS),
    ("a pre-release of identifiers, comparators after it", BOTH, identifiers, COUNTS),
    ("a pre-release with zeros in front, comparators after it", BOTH, zeros, (100_000, 200_000, 400_000)),
)
# Texts that leave their grammar, whose place is found in time that grows as n log n.
INVALID = (
    ("comparators and then `foo`", lambda size: ">=1.0.0 " * (size // 8) + "foo"),
    ("digits and then `!`", filled("1", "", "!")),
    ("identifiers and then `!`", filled("a.", "1.2.3-", "!")),
    ("wide whitespace and then `!`", filled("\u3000", "1", "!")),
    ("`!` and then comparators", lambda size: "!" + ">=1.0.0 " * (size // 8)),
)
MEGABYTE = (1 << 18, 1 << 19, 1 << 20)
# Calls on one or two requirements, each of many ranges.
LOWEST_VERSIONS = ("min-version", "common-version", "version-outside", "is-equivalent")
SHAPES = (("disjoint", disjoint), ("nested", nested), ("crossing", crossing))
KINDS = (("releases", ""), ("pre-releases", "-a"))


def seconds(row):
    """The processor time of the row, of which only the question matters."""
    with tempfile.TemporaryFile() as table:
        table.write(json.dumps([row, ["rejected"]]).encode() + b"\n")
        found = []
        for _ in range(RUNS):
            table.seek(0)
            child = subprocess.Popen([str(PROGRAM)], stdin=table, stdout=subprocess.DEVNULL)
            _, status, used = os.wait4(child.pid, 0)
            child.returncode = os.waitstatus_to_exitcode(status)
            if child.returncode not in (0, 1):
                sys.exit(f"{row[0]}: status {child.returncode}")
            found.append(used.ru_utime + used.ru_stime)
            if found[-1] > LONG:
                break
        return min(found)


def report(name, times, size):
    print(f"{name}: {size:,} bytes: " + ", ".join(f"{it:.3f}" for it in times), flush=True)


def grows_by_at_most(most, times):
    """Whether a text four times as long takes at most so many times as long."""
    return all(later < LEAST or later <= most * max(first, LEAST / most) for first, later in zip(times, times[2:]))


def lowest_versions():
    """The calls on lowest versions, by the number of ranges and by the number of requirements."""
    for call in LOWEST_VERSIONS:
        for shape, make in SHAPES:
            for kind, qualifier in KINDS:
                majors = (1,) if call == "min-version" else (1, 2)
                texts = [make(it, qualifier) for it in majors]
                yield f"{call}, {shape} {kind}", [[call, "npm", "restricted", *[text(size) for text in texts]] for size in RANGES]
    yield "common-of-all, requirements", [["common-of-all", "npm", "restricted", *[f">=1.{at}.0" for at in range(size)]] for size in REQUIREMENTS]


def main(part=""):
    if not PROGRAM.is_file():
        sys.exit(f"{PROGRAM} isn't built: run rt ci first")
    rows = [
        (f"{name}, {grammar}", [["fits", grammar, make(size), "1.0.0"] for size in sizes])
        for name, grammars, make, sizes in LINEAR
        for grammar in grammars
    ]
    rows += [(f"place of an error, {name}, {grammar}", [["error-place", grammar, make(size)] for size in MEGABYTE]) for name, make in INVALID for grammar in BOTH]
    for arguments, more in (["normal", "normal"], []), (["normal", "npm"], []), (["written", "inner"], [""]):
        rows.append((" ".join(["pieces `1`,", *arguments]), [[*arguments, joined("1", " || ")(size), *more] for size in COUNTS]))
    grown = []
    for name, asked in rows:
        if part in name:
            shortest = seconds([*asked[0][:2], "1", *asked[0][3:]])
            times = [seconds(row) - shortest for row in asked]
            report(name, times, len(asked[-1][2].encode()))
            grown += [name] * (not grows_by_at_most(MOST, times))
    for name, asked in lowest_versions():
        if part in name:
            times = [seconds(row) for row in asked]
            report(name, times, sum(len(it) for it in asked[-1][3:]))
            grown += [name] * (not grows_by_at_most(MOST, times))
    print("grows too fast: " + ("; ".join(grown) or "none"))
    return 1 if grown else 0


if __name__ == "__main__":
    sys.exit(main(*sys.argv[1:]))
