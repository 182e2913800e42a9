#!/usr/bin/env python3
"""Writes README's table of calls from calls.tsv: which call answers a question in each language, in `ranges` and in node-semver.

    bindings/calls.py [--check]

Each name must be one that the language has, and each call of C, function of Python, Rust and JavaScript, and command of `ranges` must stand in
a row; what differs is printed, and the status is 1 then. With --check nothing is written, and a table that is stale is reported as well."""
import pathlib
import re
import sys

HERE = pathlib.Path(__file__).resolve().parent
TOP = HERE.parent
PAGE = TOP / "README.md"


def found(pattern, *paths):
    return set(re.findall(pattern, "\n".join(path.read_text() for path in paths), re.M))


def members(paths, head, member):
    """Names such as Range.matches, of classes whose bodies are indented."""
    names = set()
    for path in paths:
        for name, body in re.findall(rf"^{head}(\w+)[^\n]*\n((?:[ \t}}][^\n]*\n|\n)*)", path.read_text(), re.M):
            names |= {f"{name}.{it}" for it in re.findall(member, body, re.M)}
    return names


def names_of():
    """The names that each language has."""
    python = sorted((HERE / "python/deno_semver").glob("*.py"))
    rust = sorted((HERE / "rust/src").glob("*.rs"))
    types, compat = HERE / "js/src/index.d.ts", HERE / "js/src/compat.d.ts"
    commands = re.search(r'compgen -W "(check .*?) help --help', (TOP / "packaging/completions/ranges.bash").read_text()).group(1)
    return {
        "C": found(r"\bsemver_(\w+)\(", HERE / "c/semver.h"),
        "Python": found(r'^    "(\w+)",', python[0]) | members(python, "class ", r"^    def (\w+)"),
        "Rust": found(r"\b(?:fn|struct) (\w+)", *rust),
        "JavaScript": found(r"^export (?:function|class) (\w+)", types) | members([types], "export class ", r"^  (?:get )?(\w+)(?:\(|:)"),
        "ranges": set(commands.split()),
        "node-semver": found(r"^export (?:function|class) (\w+)", compat),
    }


def wanted(names):
    """The names that must stand in a row, for each language."""
    return {
        "C": names["C"],
        "Python": {name for name in names["Python"] if name.islower() and "." not in name},
        "Rust": found(r"^pub fn (\w+)", *sorted((HERE / "rust/src").glob("*.rs"))),
        "JavaScript": {name for name in names["JavaScript"] if name[0].islower() and "." not in name},
        "ranges": names["ranges"],
    }


def faults(rows):
    names = names_of()
    # A name of Rust is known by its last part.
    stated = {language: {it.split("::")[-1] for row in rows for it in row[language]} for language in names}
    for language, stands in stated.items():
        yield from (f"{language} has no {it}" for it in sorted(stands - names[language]))
    for language, all_of in wanted(names).items():
        yield from (f"no row has {it} of {language}" for it in sorted(all_of - stated[language]))


def table(heads, rows):
    lines = ["| " + " | ".join(heads) + " |", "|" + "---|" * len(heads)]
    for row in rows:
        cells = [", ".join(f"`{it}`" for it in row[head]) for head in heads[1:]]
        lines.append("| " + " | ".join([row[heads[0]], *cells]) + " |")
    return "\n".join(lines) + "\n"


def main():
    heads, *lines = [line.split("\t") for line in (HERE / "calls.tsv").read_text().splitlines()]
    rows = [dict(zip(heads, [line[0], *([it for it in cell.split(", ") if it] for cell in line[1:])])) for line in lines]
    problems = list(faults(rows))
    old = PAGE.read_text()
    # The table is the last part of the page.
    new = old[: old.index(f"| {heads[0]} |")] + table(heads, rows)
    if sys.argv[1:] != ["--check"]:
        PAGE.write_text(new)
    elif old != new:
        problems.append("README's table of calls is stale: run bindings/calls.py")
    print(*problems, sep="\n", end="\n" * bool(problems))
    return bool(problems)


if __name__ == "__main__":
    sys.exit(main())
