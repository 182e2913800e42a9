#!/usr/bin/env python3
"""Checks that each file that states the version of the project states this one, the Makefile's, and that packages name one address of the
repository. The programs say their version by --version.

    packaging/versions.py VERSION

It prints each that differs; the status is 1 then."""
import pathlib
import re
import sys

TOP = pathlib.Path(__file__).resolve().parents[1]
NAMES = re.compile(r"deno[-_]semver(?:_proved)?[-_](\d+\.\d+\.\d+)")
# Where the version stands in each file, and how often it does at least.
FILES = {
    "action.yml": (re.compile(r"^    default: (\d+\.\d+\.\d+)$", re.M), 1),
    "bindings/c/semver.h": (re.compile(r'^#define SEMVER_VERSION "(.*)"', re.M), 1),
    "bindings/js/package.json": (re.compile(r'^  "version": "(.*)"', re.M), 1),
    "bindings/postgres/META.json": (re.compile(r'^  "version": "(.*)"', re.M), 1),
    "bindings/python/deno_semver/__init__.py": (re.compile(r'^__version__ = "(.*)"', re.M), 1),
    "bindings/rust/Cargo.toml": (re.compile(r'\A\[package\]\nname = .*\nversion = "(.*)"'), 1),
    "README.md": (NAMES, 3),
    "bindings/python/README.md": (NAMES, 1),
    "bindings/rust/README.md": (NAMES, 1),
    "packaging/man/npmver.1": (re.compile(r"^\.TH .*?(\d+\.\d+\.\d+)", re.M), 0),
    "packaging/man/ranges.1": (re.compile(r"^\.TH .*?(\d+\.\d+\.\d+)", re.M), 0),
}
# Where the address of the repository stands.
ADDRESS = re.compile(r"https://[\w./-]*/deno_semver\b")
ADDRESSED = (
    "bindings/js/package.json",
    "bindings/postgres/META.json",
    "bindings/python/make_wheel.py",
    "bindings/python/pyproject.toml",
    "bindings/rust/Cargo.toml",
    "packaging/debian/control.in",
)


def main():
    wanted = sys.argv[1]
    faults = []
    addresses = {name: set(ADDRESS.findall((TOP / name).read_text())) for name in ADDRESSED}
    if any(len(found) != 1 or found != addresses[ADDRESSED[0]] for found in addresses.values()):
        faults.append(f"packages name other addresses of the repository: {addresses}")
    for name, (pattern, least) in FILES.items():
        stated = pattern.findall((TOP / name).read_text())
        if len(stated) < least:
            faults.append(f"{name} has the version {len(stated)} times, and is expected to have it {least} times")
        faults += [f"{name} has the version {it}, and the Makefile {wanted}" for it in stated if it != wanted]
    print(*faults, sep="\n", end="\n" * bool(faults), file=sys.stderr)
    return bool(faults)


if __name__ == "__main__":
    sys.exit(main())
