#!/usr/bin/env python3
"""Compares what `ranges check` refuses with what npm refuses. Run at the top of the project, after rt ci (or after rt run in
crates/ranges), which builds the program.

    tools/manifests/check.py [--take]

specifiers.jsonl has texts of dependencies, and manifests.jsonl has whole files, each with npm's answer behind it: the type that
npm-package-arg gives the dependency, or `refused`. The first line of each has the versions of the modules that answered. A manifest is
refused if npm refuses a dependency, an override or the workspaces, as the root or below another package, or if it isn't JSON. The texts were
written for this table. ask.mjs took the answers: it asks the modules npm-package-arg, semver, arborist and map-workspaces that npm brings
along; --take takes them anew, of the npm on this machine. Where node and npm are here, and the modules have these versions, they are asked
each time as well, and must answer the same.

`ranges check` agrees if it reports an error exactly where npm refuses. What it rewrites with --fix must mean the same to npm's semver, of which
same.mjs asks, and isn't rewritten again. The last line counts; the status is 1 where something differs.

To ask npm itself about a manifest, let a server on this machine answer each name with a few versions, and run
`npm install --package-lock-only --registry=http://127.0.0.1:PORT/` there."""
import json, pathlib, shutil, subprocess, sys, tempfile

TOP = pathlib.Path(__file__).resolve().parents[2]
HERE = pathlib.Path(__file__).resolve().parent
RANGES = TOP / "crates/ranges/out/ranges"
TABLES = ("specifiers", "manifests")
# Ranges to rewrite: each comparator, or nothing, and another, with each separator between them.
COMPARATORS = ("1", "^1.2", "~1.2.3", ">=1.2", "<2", ">1.2.x", "<=2.1.0", "1.x.3", "^0.0.3", "2.0.0-beta", ">=2.0.0-beta", ">=1.2.0-rc.1", "<0.0.0-beta", "*", "")
SEPARATORS = (" ", " || ", "||", ", ", " - ")
# With this rule --fix rewrites ranges to their canonical form.
CANONICAL = ("--rule", "not-canonical=warn")


def rows_of(name):
    """The versions that a table's answers were taken of, and its rows: texts with answers."""
    versions, *rows = map(json.loads, (HERE / f"{name}.jsonl").read_text().rstrip("\n").split("\n"))
    return versions, dict(rows)


def asked_anew(script, given):
    """What a script answers by npm's modules on this machine, or none."""
    npm, node = shutil.which("npm"), shutil.which("node")
    if not npm or not node:
        return None
    modules = pathlib.Path(npm).resolve().parents[1] / "node_modules"
    if not all((modules / name).is_dir() for name in ("npm-package-arg", "read-package-json-fast")):
        return None
    ran = subprocess.run([node, HERE / script, modules], input=json.dumps(given), capture_output=True, text=True, check=True)
    return json.loads(ran.stdout)


def findings(text):
    """What `ranges check` finds in a package.json."""
    with tempfile.TemporaryDirectory() as room:
        pathlib.Path(room, "package.json").write_text(text)
        ran = subprocess.run([RANGES, "check", "--json", "package.json"], cwd=room, capture_output=True, text=True, timeout=20)
    if ran.returncode not in (0, 1):
        sys.exit(f"ranges check ended with {ran.returncode}: {ran.stderr}")
    return json.loads(ran.stdout)


def refused(text):
    return [it["name"] for it in findings(text) if it["level"] == "error"]


def specifiers(rows):
    """What differs of specifiers, which are asked in one manifest."""
    names = {f"p{place}": text for place, text in enumerate(rows)}
    errors = set(refused(json.dumps({"dependencies": names})))
    for name, text in names.items():
        if (name in errors) != (rows[text] == "refused"):
            yield f"specifier {text!r}: npm has {rows[text]}, ranges check {'refuses' if name in errors else 'accepts'} it"


def manifests(rows):
    for text, wanted in rows.items():
        found = "refused" if refused(text) else "accepted"
        if found != wanted:
            yield f"manifest {text[:80]!r}: npm has {wanted}, ranges check {found}"


def rewritten():
    """What --fix rewrites to something else than npm reads, or rewrites again."""
    old = [one + separator + other for one in COMPARATORS for separator in SEPARATORS for other in COMPARATORS]
    with tempfile.TemporaryDirectory() as room:
        path = pathlib.Path(room, "package.json")
        path.write_text(json.dumps({"dependencies": {f"p{place}": text for place, text in enumerate(old)}}))
        subprocess.run([RANGES, "check", "--fix", "-q", *CANONICAL, path], timeout=20)
        new = json.loads(path.read_text())["dependencies"].values()
        again = subprocess.run([RANGES, "check", "--dry-run", *CANONICAL, path], capture_output=True, text=True, timeout=20).stdout
    pairs = [pair for pair in zip(old, new) if pair[0] != pair[1]]
    told = asked_anew("same.mjs", pairs) or []
    yield from (f"--fix: {one!r} was rewritten to {other!r}, and npm sees {version} in one of them" for one, other, version in told)
    if not pairs or again:
        yield f"--fix: {len(pairs)} of {len(old)} ranges were rewritten, and then {again!r}"


def take():
    texts = {name: list(rows_of(name)[1]) for name in TABLES}
    answers = asked_anew("ask.mjs", texts)
    if answers is None:
        sys.exit("there is no node with npm here")
    for name in TABLES:
        lines = [answers["versions"], *zip(texts[name], answers[name])]
        (HERE / f"{name}.jsonl").write_text("".join(json.dumps(it, ensure_ascii=False) + "\n" for it in lines))


def main():
    if sys.argv[1:] == ["--take"]:
        return take()
    if not RANGES.is_file():
        sys.exit(f"{RANGES} isn't built: run rt ci first")
    tables = {name: rows_of(name) for name in TABLES}
    answers = asked_anew("ask.mjs", {name: list(rows) for name, (_, rows) in tables.items()})
    wrong = [*specifiers(tables["specifiers"][1]), *manifests(tables["manifests"][1]), *rewritten()]
    anew = "npm isn't here, or has other versions"
    if answers and all(answers["versions"] == versions for versions, _ in tables.values()):
        anew = "npm answers the same"
        for name, (_, rows) in tables.items():
            wrong += [f"{name}: {text!r}: npm answers {new}, not {old}" for (text, old), new in zip(rows.items(), answers[name]) if old != new]
    print(*wrong, sep="\n", end="\n" if wrong else "")
    counts = " and ".join(f"{len(rows)} {name}" for name, (_, rows) in tables.items())
    print(f"{counts}, {len(wrong)} differ; {anew}")
    return 1 if wrong else 0


sys.exit(main())
