#!/usr/bin/env python3
"""Makes the PostgreSQL extension's distribution for PGXN: what builds and tests it, with META.json at the top, and its part of DATABASES as its
documentation.

    packaging/pgxn.py FOLDER

It writes FOLDER/deno_semver-VERSION.zip, the same bytes each time, and prints the path. If META.json isn't one that PGXN takes, the
status is 1."""
import json
import pathlib
import re
import sys
import zipfile

TOP = pathlib.Path(__file__).resolve().parents[1]
EXTENSION = TOP / "bindings/postgres"
# What is in the archive, of the extension's folder.
FILES = ("META.json", "Makefile", "deno_semver.control", "deno_semver--*.sql", "*.c", "*.h", "sql/*.sql", "expected/*.out")
PAGE = "doc/deno_semver.md"
# Names and versions as PGXN's specification has them, and its names of licences of free software.
TERM = re.compile(r"[^\s/\\\x00-\x1f]{2,}")
VERSION = re.compile(r"(0|[1-9]\d*)\.(0|[1-9]\d*)\.(0|[1-9]\d*)(-[0-9A-Za-z-]+)?")
LICENCES = ("agpl_3 apache_1_1 apache_2_0 artistic_1 artistic_2 bsd freebsd gfdl_1_2 gfdl_1_3 gpl_1 gpl_2 gpl_3 lgpl_2_1 lgpl_3_0 mit mozilla_1_0"
            " mozilla_1_1 openssl perl_5 postgresql qpl_1_0 ssleay sun zlib").split()
PHASES, RELATIONS = ("configure", "build", "test", "runtime", "develop"), ("requires", "recommends", "suggests", "conflicts")


def faults(meta, names):
    """What PGXN rejects in META.json, with these files beside it."""
    for key in ("abstract", "maintainer", "license", "provides", "name", "version", "meta-spec"):
        if not meta.get(key):
            yield f"there is no {key}"
            return
    if not TERM.fullmatch(meta["name"]) or not VERSION.fullmatch(meta["version"]):
        yield "the name or the version isn't one"
    if meta["meta-spec"].get("version") != "1.0.0":
        yield "the specification isn't 1.0.0"
    licence = meta["license"]
    if any(it not in LICENCES for it in ([licence] if isinstance(licence, str) else licence)):
        yield f"no licence is named {licence}"
    for name, it in meta["provides"].items():
        if not TERM.fullmatch(name) or not VERSION.fullmatch(it.get("version", "")):
            yield f"{name} has no version"
        for key in ("file", "docfile"):
            if it.get(key) not in names:
                yield f"the {key} of {name} isn't in the archive"
    for phase, of in meta.get("prereqs", {}).items():
        for relation, wanted in of.items():
            if phase not in PHASES or relation not in RELATIONS or not all(VERSION.fullmatch(it) for it in wanted.values()):
                yield f"{phase} {relation} isn't a prerequisite"
    for name, it in meta.get("resources", {}).items():
        urls = [it] if isinstance(it, str) else [it[key] for key in ("url", "web") if key in it]
        if name not in ("homepage", "bugtracker", "repository") or not all(re.match(r"\w+://\w", url) for url in urls):
            yield f"the resource {name} has no address"


def page():
    """The part of DATABASES about PostgreSQL, from its first example on, without links to other pages."""
    text = (TOP / "docs/DATABASES.md").read_text()
    keys = re.search(r"^- The sort key.*?(?=^SQLite)", text, re.M | re.S)[0]
    part = re.search(r"^## PostgreSQL\n.*?(^```sql\n.*?)(?=^## )", text, re.M | re.S)[1]
    return re.sub(r" \(\[[^\]]*\]\([^)]*\)\)", "", f"# deno_semver\n\n{part}## Keys and scans\n\n{keys}".rstrip() + "\n")


def contents():
    """The files of the archive by their names in it."""
    every = {str(file.relative_to(EXTENSION)): file.read_bytes() for pattern in FILES for file in EXTENSION.glob(pattern)}
    every["README.md"] = (EXTENSION / "README.md").read_bytes().replace(b"../../docs/DATABASES.md#postgresql", PAGE.encode())
    every["LICENSE"] = (TOP / "LICENSE").read_bytes()
    every[PAGE] = page().encode()
    return every


def main():
    folder = pathlib.Path(sys.argv[1])
    every = contents()
    meta = json.loads(every["META.json"])
    found = list(faults(meta, every))
    if found:
        print(*(f"META.json: {it}" for it in found), sep="\n", file=sys.stderr)
        return 1
    distribution = f"{meta['name']}-{meta['version']}"
    folder.mkdir(parents=True, exist_ok=True)
    path = folder / f"{distribution}.zip"
    with zipfile.ZipFile(path, "w", zipfile.ZIP_DEFLATED) as archive:
        for name, data in sorted(every.items()):
            entry = zipfile.ZipInfo(f"{distribution}/{name}", (2026, 1, 1, 0, 0, 0))
            entry.compress_type = zipfile.ZIP_DEFLATED
            entry.external_attr = 0o100644 << 16
            archive.writestr(entry, data)
    print(path)
    return 0


if __name__ == "__main__":
    sys.exit(main())
