"""The time of an import, and that of 100,000 versions, beside other packages where they are installed: speed.py [--brief]

The status is 1 if an import takes more than IMPORT milliseconds of processor time, or if parsing takes longer than with another package, in
each of TRIES tries.
With --brief nothing else is measured, and of fewer versions. DENO_SEMVER_LIBRARY is the shared library, by default the one in the package."""

import functools
import importlib
import os
import subprocess
import sys
import tempfile
import time

import deno_semver as semver

IS_BRIEF = "--brief" in sys.argv
IMPORT = 40
TRIES = 5
COUNT = 10_000 if IS_BRIEF else 100_000
TEXTS = [f"{n % 7}.{n % 31}.{n % 101}" + (f"-rc.{n % 5}" if n % 3 == 0 else "") for n in range(COUNT)]


def fastest(ask, passes):
    """The lowest processor time of so many passes, in milliseconds, and what they return."""
    times = []
    for _ in range(passes):
        start = time.thread_time()
        answer = ask()
        times.append(time.thread_time() - start)
    return min(times) * 1e3, answer


def parsers():
    """What parses a version: ours, and those of the packages that are there."""
    yield "deno_semver.Version", semver.Version
    for module, name in (("packaging.version", "Version"), ("semver", "Version.parse"), ("semver", "VersionInfo.parse"), ("semantic_version", "Version")):
        try:
            yield f"{module}.{name}", functools.reduce(getattr, name.split("."), importlib.import_module(module))
        except (ImportError, AttributeError):
            pass


def beside():
    """The times of each package, which are asked in turn: of parsing a version, of its text, of its numbers, and of sorting, in µs."""
    times = {}
    for _ in range(5):
        for name, parse in parsers():
            parsed, versions = fastest(lambda: [parse(text) for text in TEXTS], 1)
            shown, _ = fastest(lambda: [str(version) for version in versions], 1)
            numbers, _ = fastest(lambda: [(it.major, it.minor) for it in versions], 1)
            ordered, _ = fastest(lambda: sorted(versions), 1)
            times.setdefault(name, []).append((parsed, shown, numbers, ordered))
    return {name: [min(it) * 1e3 / COUNT for it in zip(*passes)] for name, passes in times.items()}


def of_import():
    """The lowest processor time of an import in a fresh process, in milliseconds. The first one leaves bytecode for the others."""
    timed = "import time; start = time.process_time(); import deno_semver; print(time.process_time() - start)"
    with tempfile.TemporaryDirectory() as folder:
        environment = {**os.environ, "PYTHONPYCACHEPREFIX": folder, "PYTHONDONTWRITEBYTECODE": ""}
        times = [float(subprocess.check_output([sys.executable, "-c", timed], env=environment)) for _ in range(6)]
    return min(times) * 1e3


def bars():
    """Prints these times, and returns what is too slow."""
    times, imported = beside(), of_import()
    for name, (parsed, shown, numbers, ordered) in times.items():
        print(f"{name}: parse {parsed:.2f}, str {shown:.2f}, the numbers {numbers:.2f}, sort {ordered:.2f} µs a version")
    print(f"import {imported:.1f} ms")
    ours, *others = (parsed for parsed, *_ in times.values())
    return ["an import"] * (imported > IMPORT) + ["parsing"] * (ours > min(others, default=ours))


def main():
    slow = bars()
    for _ in range(TRIES - 1):
        slow = slow and bars()
    if slow:
        sys.exit(f"too slow: {', '.join(slow)}")
    if IS_BRIEF:
        return
    versions = [semver.Version(text) for text in TEXTS]
    for text in ("^1.2", ">=1.2 <2 || 3.x || ~5.6.7"):
        held = semver.Range(text)
        once, found = fastest(lambda: semver.filter(text, TEXTS), 5)
        of_texts, again = fastest(lambda: [version for version in TEXTS if held.matches(version)], 3)
        of_values, values = fastest(lambda: [version for version in versions if held.matches(version)], 3)
        each, last = fastest(lambda: [version for version in TEXTS if semver.matches(text, version)], 1)
        assert found == again == last == [str(version) for version in values]
        print(f"{text}: filter {once:.0f} ms, Range.matches {of_texts:.0f} ms, of a Version {of_values:.0f} ms, matches {each:.0f} ms")
    print(f"sort {fastest(lambda: semver.sort(TEXTS), 5)[0]:.0f} ms, Version {fastest(lambda: [semver.Version(text) for text in TEXTS], 1)[0]:.0f} ms")


main()
