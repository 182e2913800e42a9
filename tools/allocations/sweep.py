#!/usr/bin/env python3
"""Runs conformance, npmver and ranges while each of their allocations fails in turn, and compares what they answer with what they
answer with ample memory. Run at the top of the project, after rt ci (or after rt run in the three crates), which builds them.

    tools/allocations/sweep.py [ROWS]    ROWS: another table to choose rows from, or conformance's own

The last line counts; the status is 1 where an answer is wrong."""
import itertools, json, os, pathlib, re, subprocess, sys, tempfile
from concurrent.futures import ThreadPoolExecutor

TOP = pathlib.Path(__file__).resolve().parents[2]
HERE = pathlib.Path(__file__).resolve().parent
PROGRAMS = {name: TOP / f"crates/{name}/out/{name}" for name in ("conformance", "npmver", "ranges")}
# How many runs in a row meet no failure before a sweep ends.
QUIET = 3
# Rows of each call: the first, the last, and those between in even steps.
ROWS = 6
LONG_TEXTS = re.compile(rb"[A-Za-z]{24}")
# Texts that are always asked, by each call that takes one like them.
TEXTS = (
    "^1.2.3-alpha.beta >=1.2.3-beta || foo || 2.x",
    "abcdefghijklmnopqrstuvwxyzabcdefghijklmn",
    "@scope/name@^1.0.0-a.b.c",
)
# Calls whose first argument says what is asked: rows of each are chosen, and each example is asked.
KINDS = ("example", "order-of", "equal-of", "written", "json", "stored", "error-place")
# On texts that are stored in the value, which never take memory.
NEEDS_NONE = ("example in-value",)
# What a call answers out of memory. One answers whether a parser ran out of it, too; it is swept with the texts alone, with nothing
# behind them.
OUT_OF_MEMORY = (b"out of memory",)
ANSWERS = {"ample": (*OUT_OF_MEMORY, b"no")}
ALONE = b',"0"],'
SHORT = 2955
# How many bytes the longest argument has that npmver gets.
LONG = 10_000_000


def built(name):
    program = PROGRAMS[name]
    if not program.is_file():
        sys.exit(f"{program} isn't built: run rt ci first")
    return str(program)


def library(room):
    to = f"{room}/fail.so"
    subprocess.run(["cc", "-O1", "-shared", "-fPIC", "-o", to, str(HERE / "fail.c")], check=True)
    return to


class Run:
    """What a program did."""

    def __init__(self, arguments, given, preload=None, at=0, is_all=False):
        read, write = os.pipe()
        env = {"PATH": "/usr/bin:/bin", "LANG": "C.UTF-8"}
        if preload:
            env |= {"LD_PRELOAD": preload, "FAIL_AT": str(at), "FAIL_LOG": str(write), "FAIL_ALL": str(int(is_all))}
            env |= {"LONG_ARGUMENT": str(LONG)} if "LONG" in arguments else {}
        ran = subprocess.run(arguments, input=given, capture_output=True, env=env, pass_fds=[write], timeout=60)
        os.close(write)
        with os.fdopen(read, "rb") as it:
            self.failures = len(it.read())
        self.status, self.out, self.err = ran.returncode, ran.stdout, ran.stderr


class Sweep:
    """One question while each allocation fails in turn: alone, and with all after it."""

    def __init__(self, name, arguments, given, is_right):
        self.name, self.arguments, self.given, self.is_right = name, arguments, given, is_right
        self.runs = self.failures = 0
        self.wrong, self.outputs = [], set()

    def go(self, preload):
        ample = Run(self.arguments, self.given)
        for is_all in (False, True):
            quiet = 0
            for at in itertools.count(1):
                ran = Run(self.arguments, self.given, preload, at, is_all)
                self.runs += 1
                self.failures += ran.failures
                self.outputs.add(ran.out)
                if not self.is_right(ample, ran):
                    how = "and all after it" if is_all else "alone"
                    self.wrong.append(f"{self.name}: request {at} {how}: status {ran.status}: {(ran.out + ran.err)[:200]!r}")
                quiet = quiet + 1 if ran.failures == 0 else 0
                if quiet == QUIET:
                    break
        return self


def row_is_right(line, may_run_out, answers):
    """The right answer; or out of memory, of the call (the row differs, with that answer) or of the program (status 5)."""
    lines = tuple(b"line 1: " + line + b"\n    answered [\"" + answer + b"\"]\n" for answer in answers)

    def is_right(ample, ran):
        if ran.failures == 0 or (ran.status, ran.out) == (0, ample.out):
            return (ran.status, ran.out) == (0, ample.out)
        if ran.status == 5:
            return True
        return may_run_out and ran.status == 1 and ran.out.startswith(lines)

    return is_right


def command_is_right(ample, ran):
    if (ran.status, ran.out, ran.err) == (ample.status, ample.out, ample.err):
        return True
    return ran.failures > 0 and ran.status == 5 and not ran.out and ran.err in (b"", b"out of memory\n")


def ranges_is_right(ample, ran):
    """What was asked for; or out of memory, behind a part of it."""
    if (ran.status, ran.out, ran.err) == (ample.status, ample.out, ample.err):
        return True
    is_reported = ran.err == b"" or ran.err.endswith(b": out of memory\n")
    return ran.failures > 0 and ran.status == 5 and is_reported and ample.out.startswith(ran.out)


def rows_of(table):
    rows = {}
    for line in table.read_bytes().split(b"\n"):
        if line.startswith(b"[["):
            call, *arguments = json.loads(line)[0]
            rows.setdefault(f"{call} {arguments[0]}" if call in KINDS else call, []).append(line)
    return rows


def chosen(lines):
    """Rows of one call: some in even steps; the first ones with a text that is too long to be stored in a value; for each of the texts
    the first one that holds it, by npm's grammar where there is such a row; and so the first one with alternatives."""
    step = max(1, (len(lines) - 1) // (ROWS - 1))
    picked = [lines[at] for at in sorted({*range(0, len(lines), step)} | {len(lines) - 1})][: ROWS + 1]
    picked += [line for line in lines if LONG_TEXTS.search(line)][:ROWS]
    by_npm = sorted(lines, key=lambda line: b'"npm"' not in line)
    for part in (*(json.dumps(text, ensure_ascii=False).encode() for text in TEXTS), b"||"):
        picked += [line for line in by_npm if part in line][:1]
    return list(dict.fromkeys(picked))


def commands():
    loose = TEXTS[0]
    yield from (["fits", "npm", loose, "1.2.3-gamma"], ["fits", "strict", TEXTS[1], "1.0.0"], ["fits", "normal", "1 || 2", "3.0.0"])
    yield from (["fits-pre", "npm", "^1.0.0", "2.0.0-rc1"], ["normal", "npm", loose], ["normal", "strict", "latest"])
    yield from (["meet", "<1", ">=1"], ["meet", loose, "1.2.3-b - 3"], ["best", "npm", loose, "1.2.3-rc", "2.1.0", "2.0.0"])
    yield from (["best", "npm", "1", "1.0.0", "foo"], ["fits", "strict", "", "1.0.0"], ["nothing"], [])


MANIFEST = b'{"dependencies": {"a": "^1.2 || ^1", "b": ">=1.2<2", "c": "npm:d@^1.2.3-rc.1", "h": 1, "k": "catalog:b"}, "imports": {"e": "jsr:@f/g@1"}, "engines": {"node": 18}}'
# One with a finding of each rule, a setting, a version, a package manager and workspaces.
ODD = (
    b'{"ranges": {"rules": {"not-canonical": "warn", "no-such": "off"}}, "version": "1", "packageManager": "npm", "workspaces": ["p/*"], '
    b'"dependencies": {"a": "^1 or ^2", "b": "1.x.3 || latest", "c": "^0", "a": "1, 2", "d": "~~1", "e": "^7.0.0-0", "f": "1.2/3/4", "g": "npm:a/b"}, '
    b'"peerDependencies": {"a": "^3", "c": "2"}, "peerDependenciesMeta": {"h": {"optional": true}}, "overrides": {"i": {"j": "1 || 1,2"}, '
    b'"k@>": "$l", "a@^1": "1.5"}, "resolutions": {"a/b@npm:1 <": "2"}, "name": "o", "devDependencies": {"o": "workspace:^9", "n": "catalog:"}}'
)
WORKSPACE = b"packages:\n  - 'p/*'\ncatalog:\n  \"a\": '^0'\ncatalogs:\n  b:\n    c: >=1\n    k: ^1\n"
VERSIONS = b"1.2.3-rc\n2.1.0\n1.x\n\"2.\\u0030.0\"\n"


def folder_of_manifests(room):
    """A folder with manifests in it and below it."""
    folder = pathlib.Path(room, "manifests")
    for name, held in {"package.json": MANIFEST, "pnpm-workspace.yaml": WORKSPACE, "p/a/package.json": ODD, "p/b/c/deno.jsonc": b'{"imports": {"a": "npm:e@1", "f": "npm:https://g"}}', ".gitignore": b"!x?[a-c]\n/p/**/q\n", "p/a/.git": b"gitdir: ../g\n"}.items():
        (folder / name).parent.mkdir(parents=True, exist_ok=True)
        (folder / name).write_bytes(held)
    return str(folder)


def ranges_commands(folder):
    """Commands of ranges, each with its standard input."""
    loose, tag = TEXTS[0], "latest"
    for json_form in ([], ["--json"]):
        yield from (([name, *json_form, loose, tag], b"") for name in ("explain", "canonical"))
        yield from (([name, *json_form, loose], VERSIONS) for name in ("filter", "best", "outdated", "simplify"))
        yield from (([name, *json_form, loose, "^1 || foo"], b"") for name in ("common", "within", "overlap"))
        yield from ((["compare", *json_form, "1.2.3-rc", "1.2.3"], b""), (["overlap", *json_form, "*", ">=1.0.0-a <1.0.0", "1"], b""))
        yield from ((["sort", *json_form, "--reverse", "--skip-invalid"], VERSIONS), (["min", *json_form, loose], b""))
        yield from ((["key", *json_form, "--skip-invalid"], VERSIONS), (["scans", *json_form, loose], b""))
        yield from ((["check", *json_form, "--canonical", "-"], MANIFEST), (["explain", *json_form, "1 2 <"], b""))
        rules = [word for rule in ("meta-without-range", "pre-release-bound") for word in ("--rule", f"{rule}=warn")]
        yield from ((["check", *json_form, *rules, "-"], ODD), (["check", *json_form, folder], b""))
        yield from ((["package", *json_form, TEXTS[2]], b""), (["reference", *json_form, "jsr:@a/b@^1/c.ts"], b""))
        yield from ((["increment", *json_form, "prerelease", "1.2.3-rc.1", "--preid", "rc"], b""), (["asked", *json_form, folder], b""))
        yield ["difference", *json_form, "1.2.3", "1.3.0-rc.1"], b""
    yield from ((["check", "--sarif", "-"], ODD), (["check", "--dry-run", folder], b""), (["increment", "release", "1.2.3"], b""))
    yield ["scans", "--where", "key,pre", "^1.2.3-beta || 3"], b""
    yield from ((["filter", "-q", "*"], b'["1.0.0", "2.0.0-a"]'), (["best", "--tags", "*", "--range", "1"], b"refs/tags/v1.0.0\n"))
    yield from ((["min", "-"], b'"^1.2"'), (["overlap", "-", "^1"], b">=1.2\n"), (["filter", "-", "1.0.0"], b"^1"))
    yield from ((["check", "--github", f"{folder}/p/a/package.json"], b""), (["canonical", "-"], b"1\n1 2 <\n"))
    yield from ((["check", "--github", "-"], MANIFEST), (["--help"], b""), (["frobnicate"], b""), (["check", "1.x"], b""))
    yield from ((["check", "-"], b"{"), (["check", "-"], b"[]"), (["filter", "*"], b"{}"), (["check", "--rule", "none=off"], b""))


def status_of(arguments, out, err):
    with open(out, "wb") as to, open(err, "wb") as errors:
        return subprocess.run(arguments, stdin=subprocess.DEVNULL, stdout=to, stderr=errors, timeout=60).returncode


def streams(preload):
    """A standard output that can't be written gives status 6 wherever something is printed there; a standard error that can't be
    written changes no status; arguments that aren't valid UTF-8, many or long get a line and a status."""
    npmver, wrong, asked = built("npmver"), [], 0
    for arguments in commands():
        ample = Run([npmver, *arguments], b"")
        full = status_of([npmver, *arguments], "/dev/full", os.devnull)
        unreported = status_of([npmver, *arguments], os.devnull, "/dev/full")
        if full != (6 if ample.out else ample.status) or unreported != ample.status:
            wrong.append(f"npmver {arguments}: statuses {full} and {unreported} where a stream can't be written, {ample.status} else")
        asked += 2
    odd = [["fits", "npm", b"\xff", "1.0.0"], ["fits", "npm", "1", b"1.0.0\xfe"]]
    odd += [["best", "npm", "1", *["1.0.0"] * 100_000], ["meet", *["1"] * 100_000]]
    for grammar in ("npm", "normal", "strict"):
        odd += [["fits", grammar, "LONG", "1.0.0"], ["fits", grammar, "1", "LONG"], ["normal", grammar, "LONG"]]
    odd += [["best", "npm", "LONG", "1.0.0"], ["best", "npm", "1", "1.0.0", "LONG"], ["meet", "LONG", "1"], ["meet", "1", "LONG"], ["LONG"]]
    for arguments in odd:
        ran = Run([npmver, *arguments], b"", preload)
        asked += 1
        if ran.status not in (0, 1, 2, 3, 4) or (ran.out + ran.err).count(b"\n") != 1:
            wrong.append(f"npmver {str(arguments)[:60]}: status {ran.status}, {(ran.out + ran.err)[:80]!r}")
    return asked, wrong


UNFIXED = {"package.json": b'{"dependencies": {"a": ">=1.2 <2", "b": "1. 2.3"}}', "p/package.json": MANIFEST, "q/deno.json": b'{"imports": {"c": "npm:c@^1.0"}}'}


def fixes(preload):
    """`ranges check --fix` rewrites all files or none, and leaves no other file, whichever allocation fails."""
    program, wrong, asked = built("ranges"), [], 0

    def fixed(*failing):
        with tempfile.TemporaryDirectory() as room:
            for name, held in UNFIXED.items():
                (pathlib.Path(room, name).parent).mkdir(exist_ok=True)
                pathlib.Path(room, name).write_bytes(held)
            ran = Run([program, "check", "--fix", "--rule", "not-canonical=warn", room], b"", *failing)
            found = [path for path in pathlib.Path(room).rglob("*") if path.is_file()]
            return ran, {str(path.relative_to(room)): path.read_bytes() for path in found}

    _, better = fixed()
    for is_all in (False, True):
        quiet = 0
        for at in itertools.count(1):
            ran, held = fixed(preload, at, is_all)
            asked += 1
            quiet = quiet + 1 if ran.failures == 0 else 0
            if held != better and (held != UNFIXED or ran.status != 5):
                wrong.append(f"ranges check --fix: request {at}, {'and all after it' if is_all else 'alone'}: status {ran.status}, files {held}")
            if quiet == QUIET:
                break
    return asked, wrong


def short_texts():
    characters = " 01.-+*xa^~>=|"
    return ["".join(it) for length in range(4) for it in itertools.product(characters, repeat=length)]


def ample(rows):
    """No parser runs out of memory where there is enough: the short texts, and every text of the table with 1 to 64 times `1` behind it."""
    texts = dict.fromkeys(text for lines in rows.values() for line in lines for text in json.loads(line)[0][1:] if text is not None)
    short = short_texts()
    assert len(short) == SHORT, len(short)
    asked = [*((it, "0") for it in short), *((it, "64") for it in texts)]
    table = "\n".join(json.dumps([["ample", text, count], ["yes"]], ensure_ascii=False) for text, count in asked)
    ran = Run([built("conformance")], table.encode())
    wrong = [] if ran.status == 0 else [f"ample memory: {ran.out[:300]!r}"]
    return len(asked), wrong


def main():
    table = pathlib.Path(sys.argv[1]) if sys.argv[1:] else TOP / "crates/conformance/stdin"
    rows = rows_of(table)
    sweeps = []
    for call, lines in rows.items():
        for line in chosen([line for line in lines if call not in ANSWERS or ALONE in line]):
            is_right = row_is_right(line, call not in NEEDS_NONE, ANSWERS.get(call, OUT_OF_MEMORY))
            sweeps.append(Sweep(f"{call}: {line.decode()}", [built("conformance")], line, is_right))
    for arguments in commands():
        sweeps.append(Sweep(f"npmver {arguments}", [built("npmver"), *arguments], b"", command_is_right))
    with tempfile.TemporaryDirectory() as room:
        for arguments, given in ranges_commands(folder_of_manifests(room)):
            sweeps.append(Sweep(f"ranges {arguments}", [built("ranges"), *arguments], given, ranges_is_right))
        preload = library(room)
        with ThreadPoolExecutor(os.cpu_count()) as pool:
            done = list(pool.map(lambda it: it.go(preload), sweeps))
        asked, broken = streams(preload)
        fixed, partial = fixes(preload)
    texts, wrong = ample(rows)
    wrong += broken + partial + [it for sweep in done for it in sweep.wrong]
    if not any(b'answered ["no"]' in output for sweep in done if sweep.name.startswith("ample") for output in sweep.outputs):
        wrong.append("ample never answers no")
    for it in wrong[:40]:
        print(it)
    runs, failures = sum(it.runs for it in done), sum(it.failures for it in done)
    print(f"allocations: {len(rows)} calls and kinds of calls, npmver and ranges, {len(sweeps)} questions, {runs} runs, {failures} failed allocations, {texts} texts with ample memory, {asked} runs with odd streams or arguments, {fixed} runs that rewrite files, {len(wrong)} wrong answers")
    return 1 if wrong else 0


if __name__ == "__main__":
    sys.exit(main())
