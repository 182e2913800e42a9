#!/usr/bin/env python3
"""Writes docs/DEFINITIONS.md: the definitions that contracts cite, by crate and file, each with the comment that stands above it.
check.py says if the page is stale."""
import pathlib
import re

TOP = pathlib.Path(__file__).resolve().parents[2]
PAGE = TOP / "docs/DEFINITIONS.md"
HEAD = """# Definitions

The definitions that contracts cite, each with the comment above it: `tools/quotes/definitions.py` writes this page. They stand in `crates/*/specs`, in
the file that heads the list. [PROMISES](PROMISES.md#how-to-read-a-contract) says how to read a contract.
"""
CITED = re.compile(r"ghost use Rattle\.(\w+)\.specs\.(\w+)\.\{([^}]*)\}")
DEFINED = re.compile(r"^(?:abbrev |unfoldable )?pub (?:record |data |abbrev )?([\w'-]+)(?: [({].*)? : |^data pub ([\w'-]+)")


def cited():
    """The names that the sources import, with the crate and the file of each."""
    for path in sorted(TOP.glob("crates/*/src/**/*.rt")):
        for crate, file, names in CITED.findall(path.read_text()):
            yield from ((crate, file, name.split(" as ")[0].strip()) for name in names.split(","))


def comments(text):
    """The comment above each definition; the first is that of the file, under no name."""
    held, found = [], {}
    for n, line in enumerate(text.split("\n")):
        if line.startswith("-- ") and not line.startswith("-- ----"):
            held.append(line[3:])
            continue
        if held and "" not in found and n <= len(held):
            found[""], held = " ".join(held), []
        defined = DEFINED.match(line)
        if defined:
            found[defined[1] or defined[2]] = " ".join(held)
        held = []
    return found


def of_crate(crate, names):
    yield f"\n## {crate}\n"
    for file in sorted({file for file, _ in names}):
        path = TOP / f"crates/{crate}/specs/{file}.antt"
        if not path.exists():
            continue
        told = comments(path.read_text())
        listed = [(name, told.get(name, "")) for name in dict.fromkeys(it for it in [*told, *sorted(name for at, name in names if at == file)]) if (file, name) in names]
        yield f"\n### {file}\n"
        yield told.get("", "") + "\n"
        yield from (f"- `{name}`: {comment}" if comment else f"- `{name}`" for name, comment in listed)


def page():
    by_crate = {}
    for crate, file, name in cited():
        by_crate.setdefault(crate, set()).add((file, name))
    crates = [line.split()[0].rstrip(":") for line in (TOP / "crates.txt").read_text().splitlines() if line.strip()]
    return re.sub(r"\n{3,}", "\n\n", HEAD + "\n".join(line for crate in crates if crate in by_crate for line in of_crate(crate, by_crate[crate])) + "\n")


def is_stale():
    return not PAGE.exists() or PAGE.read_text() != page()


if __name__ == "__main__":
    PAGE.write_text(page())
