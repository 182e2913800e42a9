#!/usr/bin/env python3
"""Runs the examples of a section of docs/DATABASES.md, and compares what the page has them print.

    page.py SECTION COMMAND..    COMMAND runs the SQL that it reads, in one database each time

A block of SQL runs as a whole, and must write no error. In other blocks a line behind a prompt, such as `=> ` or `sqlite> `, is a
statement, and the lines below are what it writes; one that begins with a dot isn't run. The last line counts; the status is 1 where
something differs."""
import pathlib, re, subprocess, sys

PAGE = pathlib.Path(__file__).resolve().parents[1] / "docs/DATABASES.md"
PROMPT = re.compile(r"^(?:\w*[=#]?> )", re.M)


def run(statements, command):
    printed = subprocess.run(command, input=statements, stdout=subprocess.PIPE, stderr=subprocess.STDOUT, text=True).stdout
    # SQLite's shell numbers the lines that it doesn't read from a terminal.
    return re.sub(r"^(\w+ error) near line \d+", r"\1", printed, flags=re.M)


def examples(section):
    """The statements of the section, each with what it prints; blocks of SQL print nothing that is on the page."""
    page = PAGE.read_text()
    text = re.search(rf"^## {section}\n(.*?)(?=^## |\Z)", page, re.M | re.S)[1]
    for kind, block in re.findall(r"^```(\w*)\n(.*?)^```$", text, re.M | re.S):
        if kind == "sql":
            yield block, None
            continue
        for asked in PROMPT.split(block)[1:]:
            statement, _, printed = asked.partition("\n")
            if not statement.startswith("."):
                yield statement, printed


def main():
    section, *command = sys.argv[1:]
    count = differ = 0
    for statements, wanted in examples(section):
        printed = run(statements, command)
        count += 1
        if (re.search("error", printed, re.I) if wanted is None else printed != wanted):
            differ += 1
            print(f"{statements}\nprints\n{printed}" + (f"and not\n{wanted}" if wanted is not None else ""))
    print(f"{section}: {count} examples of the page, {differ} differ")
    return int(differ > 0 or count == 0)


if __name__ == "__main__":
    sys.exit(main())
