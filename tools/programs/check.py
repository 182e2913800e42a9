#!/usr/bin/env python3
"""Holds the programs ranges, npmver and conformance to their rows, the first to the examples of the pages that show it too, and the
last to rows with texts of a million letters. Run at the top of the project, after rt ci (or after rt run in the three crates),
which builds them.

    tools/programs/check.py [FOLDER [COMMAND..]]

SARIF_SCHEMA is the path of SARIF's schema, which is then asked, too, with Python's jsonschema. With a folder only the rows of ranges and npmver are run, of the programs in that folder, each by the command, such as qemu-aarch64.
A row of PROGRAM.jsonl is a JSON object: `arguments`, those after the program's name, standard input where there is one, standard output,
standard error and the status; absent texts are empty. A byte of arguments, input or files that isn't valid UTF-8 is written as Python's
surrogateescape has it, `\\udcff` for 255. A row may also have

    files    an object of files by name, in a folder in which the program runs; each is a text, or an object of `text`, `mode`, and `owner`
             if another than the one who runs the program owns it, or of `link`, what a link names; a folder's name ends with `/`
    in       the one of these folders in which the program runs instead
    after    what some of the files hold then, in the same form, and null for one that isn't there
    env      an object of variables for the environment
    tty      a list of `stdin`, `stdout` and `stderr`, each of which is a terminal of its own
    into     an object that says of `stdout` or `stderr` that it's `full`, so that nothing can be written, or `closed`, a pipe that nobody reads

Each row runs with a stack of STACK bytes, and once more where nothing can be written. An example is what stands after
`$ ` in a console block of a page, where `ranges` is in it, with the lines that it prints. The last line counts; the status is 1
where something differs."""
import contextlib, ctypes, difflib, json, os, pathlib, pty, re, resource, select, shutil, subprocess, sys, tempfile, termios, threading

TOP = pathlib.Path(__file__).resolve().parents[2]
HERE = pathlib.Path(__file__).resolve().parent
FOLDER, COMMAND = sys.argv[1:2], sys.argv[2:]
PROGRAMS = {name: TOP / f"crates/{name}/out/{name}" for name in ("ranges", "npmver", "conformance")}
if FOLDER:
    PROGRAMS = {name: pathlib.Path(FOLDER[0]).resolve() / name for name in ("ranges", "npmver")}
RANGES = PROGRAMS["ranges"]
BINDINGS, LIBRARY = TOP / "bindings", TOP / "crates/semver_c/out/libsemver_c.a"
# How many bytes a table of C's questions has at most.
TABLE = 1 << 17
PAGES = ("README.md", "docs/RANGES.md")
# How much more memory, in kilobytes, many lines may take than few.
SLACK = 1024
FEW, MANY = 50_000, 400_000
# How much memory, in kilobytes, a program may take that reads a line of that length.
SCARCE = 131_072
# Texts that a row of the table holds so many times in the place of `@`, and what is asked of them; each within some seconds.
SECONDS = 10
PIECES = ("1", "-", ".", "a.", "||", "^")
TAG = '[["requirement","strict","@"],["tag","@","@"]]'
REJECTED = '[["requirement","strict","@"],["rejected"]]'
TOO_LARGE = '[["version","@"],["rejected","Number is too large.",null]]'
UNEXPECTED = '[["version","@"],["rejected","Unexpected character.",null]]'
LONG = (
    *((1_000_000, piece, REJECTED if piece in ("||", "^") else TAG) for piece in PIECES),
    *((1_000_000, piece, TOO_LARGE if piece == "1" else UNEXPECTED) for piece in PIECES),
    (20_000, "a.", '[["version","1.2.3-@a+@a"],["read","1.2.3-@a+@a"]]'),
    (20_000, "a.", '[["fits","strict","1.2.3-@+@","1.2.3-@+@"],["yes"]]'),
)

# What SARIF says of each rule, and the rules that are off where nothing sets them.
RULE_TEXTS = ("shortDescription", "fullDescription", "help")
RULES_OFF = ["meta-without-range", "not-canonical", "pre-release-bound"]

# With this rule `--fix` rewrites ranges to their canonical form.
CANONICAL = ["--rule", "not-canonical=warn"]

# The stack that a program has behind its arguments, in bytes; and how much its arguments may take there, and more.
STACK, ROOMY = 256 * 1024, 64 * 1024 * 1024
# The calls of ptrace.
TRACEME, DETACH = 0, 17
LIBC = ctypes.CDLL(None, use_errno=True)
LIBC.ptrace.argtypes = (ctypes.c_long, ctypes.c_int, ctypes.c_void_p, ctypes.c_void_p)
# How many arguments or lines a program gets, and within how many seconds it answers.
PLENTY, SOON = 200_000, 60
# How many alternatives two requirements have that are asked about together, and how many seconds that may take.
ALTERNATIVES, MOMENT = 3_200, 1
# How many overrides stand in one another.
LEVELS = 16_000
# How many files of a workspace are named, and how many packages its own manifest asks for.
NAMED = 1_000


# What is printed of the range `1`, and of the line `^1..2`.
ONE_EXPLAINED = (
    '{"alternatives":[{"comparators":[{"end":{"inclusive":false,"version":"2.0.0"},"start":{"inclusive":true,"version":"1.0.0"},'
    '"text":"1"}],"end":{"inclusive":false,"version":"2.0.0"},"lowest":"1.0.0","pre-releases":[],'
    '"start":{"inclusive":true,"version":"1.0.0"},"text":"1"}],"canonical":"1"}\n'
)
ONE_CHECKED = '-:{}:4: error: "^1..2": not a version range\n  | ^1..2\n  |    ^ expected a number or a wildcard\n'


def as_bytes(given):
    return given.encode(errors="surrogateescape")


def limit_own_stack():
    """Limits the stack of a child before its program begins, arguments included."""
    resource.setrlimit(resource.RLIMIT_STACK, (STACK, STACK))


def prepare():
    """In a child, before its program begins: takes so many arguments as the system allows, and stops where the program begins."""
    resource.setrlimit(resource.RLIMIT_STACK, (ROOMY, resource.getrlimit(resource.RLIMIT_STACK)[1]))
    if LIBC.ptrace(TRACEME, 0, None, None) != 0:
        raise OSError(ctypes.get_errno(), "ptrace")


def limit_stack(pid):
    """Leaves a program that begins so much of a stack behind its arguments, which lie there too."""
    os.waitpid(pid, 0)
    taken = int(re.search(r"VmStk:\s+(\d+) kB", pathlib.Path(f"/proc/{pid}/status").read_text())[1])
    resource.prlimit(pid, resource.RLIMIT_STACK, (taken * 1024 + STACK,) * 2)
    LIBC.ptrace(DETACH, pid, None, None)


@contextlib.contextmanager
def room_of(files):
    """A folder with these files, or none."""
    if files is None:
        yield None
        return
    with tempfile.TemporaryDirectory() as room:
        os.chmod(room, 0o755)
        for name, held in files.items():
            path = pathlib.Path(room) / name
            held = held if isinstance(held, dict) else {"text": held}
            path.parent.mkdir(parents=True, exist_ok=True)
            if "link" in held:
                path.symlink_to(held["link"])
                continue
            if name.endswith("/"):
                path.mkdir()
            else:
                path.write_bytes(as_bytes(held["text"]))
            path.chmod(int(held.get("mode", "644"), 8))
        yield room
        for name in files:
            if name.endswith("/"):
                (pathlib.Path(room) / name).chmod(0o755)


def held_in(room, after):
    """What the files of a row hold now, each in the form that the row has it in."""
    held = {}
    for name, wanted in after.items():
        path = pathlib.Path(room) / name
        text = path.read_bytes().decode(errors="surrogateescape") if path.is_file() else None
        held[name] = {"text": text, "mode": f"{path.stat().st_mode & 0o777:o}"} if isinstance(wanted, dict) else text
    return held


def terminal():
    """The two ends of a terminal that writes what it gets as it is, and echoes nothing."""
    ours, theirs = pty.openpty()
    modes = termios.tcgetattr(theirs)
    modes[1] &= ~termios.OPOST
    modes[3] &= ~termios.ECHO
    termios.tcsetattr(theirs, termios.TCSANOW, modes)
    return ours, theirs


def read_all(end, parts):
    """Reads what a terminal gets until its other end is closed."""
    with contextlib.suppress(OSError):
        while part := os.read(end, 4096):
            parts.append(part)


def stream(row, name):
    """Our end of a stream of the program, if it is a terminal, and the program's end."""
    if name in row.get("tty", ()):
        return terminal()
    match row.get("into", {}).get(name):
        case "full":
            return None, os.open("/dev/full", os.O_WRONLY)
        case "closed":
            ours, theirs = os.pipe()
            os.close(ours)
            return None, theirs
    return None, subprocess.PIPE


def run(program, row, seconds=60):
    """What the program writes, its status, and what files hold then, if the row says it. Where a file has a mode, root runs the program as
    nobody, whose folder and files these are, and a copy of it."""
    streams = {name: stream(row, name) for name in ("stdin", "stdout", "stderr")}
    given = as_bytes(row.get("stdin", ""))
    env = {name: held for name, held in os.environ.items() if name not in ("NO_COLOR", "TERM")} | row.get("env", {})
    with room_of(row.get("files")) as room:
        here = room and pathlib.Path(room) / row.get("in", "")
        words, options = [*COMMAND, str(program)], {"cwd": here, "env": env, "preexec_fn": prepare}
        if os.geteuid() == 0 and any(isinstance(it, dict) for it in row.get("files", {}).values()):
            words[-1] = shutil.copy(program, room)
            for name, held in {".": {}, **row["files"]}.items():
                if isinstance(held, dict) and "owner" not in held and (name == "." or "text" in held):
                    os.chown(pathlib.Path(room) / name, 65534, 65534)
            options |= {"user": 65534, "group": 65534, "extra_groups": (), "preexec_fn": limit_own_stack}
        if COMMAND:
            options["preexec_fn"] = None  # an emulator needs its own stack
        ends = {name: theirs for name, (_, theirs) in streams.items()}
        child = subprocess.Popen([*words, *row["arguments"]], **ends, **options)
        if options["preexec_fn"] is prepare:
            limit_stack(child.pid)
        for theirs in ends.values():
            if theirs != subprocess.PIPE:
                os.close(theirs)
        parts = {name: [] for name, (ours, _) in streams.items() if ours is not None}
        for name in parts.keys() - {"stdin"}:
            threading.Thread(target=read_all, args=(streams[name][0], parts[name]), daemon=True).start()
        if "stdin" in parts:
            os.write(streams["stdin"][0], given + b"\4")
        try:
            written = child.communicate(given if "stdin" not in parts else None, timeout=seconds)
        except subprocess.TimeoutExpired:
            child.kill()
            child.wait()
            raise
        held = [held_in(room, row["after"])] if "after" in row else []
    for thread in threading.enumerate():
        if thread is not threading.current_thread():
            thread.join()
    for name in parts:
        os.close(streams[name][0])
    texts = [b"".join(parts[name]) if name in parts else text or b"" for name, text in zip(("stdout", "stderr"), written)]
    return *(text.decode() for text in texts), child.returncode, *held


def wanted_of(row):
    return row.get("stdout", ""), row.get("stderr", ""), row["status"], *([row["after"]] if "after" in row else [])


def rows_of(name):
    """The rows of a program, each with where it stands."""
    for number, line in enumerate((HERE / f"{name}.jsonl").read_text().splitlines(), 1):
        yield f"{name}.jsonl:{number}", json.loads(line)


def rows():
    """For each row what differs, or None."""
    for name, program in PROGRAMS.items():
        for place, row in rows_of(name):
            wanted, found = wanted_of(row), run(program, row)
            yield None if found == wanted else f"{place}: {row['arguments']}: wanted {wanted}, found {found}"


def unwritable():
    """Where nothing can be written, an answer has the status 6, and any other status stays."""
    full = {"into": {"stdout": "full", "stderr": "full"}, "tty": ()}
    for name, program in PROGRAMS.items():
        for place, row in rows_of(name):
            if "tty" in row or "into" in row:
                continue
            wanted = 6 if "stdout" in row else row["status"]
            found = run(program, row | full)[2]
            yield None if found == wanted else f"{place}, where nothing can be written: wanted {wanted}, found {found}"
    found = run(RANGES, full | {"arguments": ["filter", "*"], "stdin": "1.0.0\n" * FEW})[2]
    yield None if found == 6 else f"an answer that is longer than the buffer, where nothing can be written: found {found}"


def unreadable():
    """Standard input that can't be read, here a folder, is reported where it is needed, and nowhere else."""
    unread = ("", "ranges: standard input can't be read\n", 6)
    asked = (
        *(("ranges", arguments, unread) for arguments in (["filter", "*"], ["best", "*"], ["sort"], ["sort", "--json", "--reverse"])),
        ("ranges", ["filter", "*", "1.0.0"], ("1.0.0\n", "", 0)),
        ("ranges", ["best", "latest"], ("tag latest\n", "", 2)),
        ("conformance", [], ("", "", 4)),
    )
    folder = os.open(HERE, os.O_RDONLY)
    for name, arguments, wanted in asked:
        ran = subprocess.run([str(PROGRAMS[name]), *arguments], stdin=folder, capture_output=True, timeout=60)
        found = (ran.stdout.decode(), ran.stderr.decode(), ran.returncode)
        yield None if found == wanted else f"{name} {arguments}, where standard input can't be read: wanted {wanted}, found {found}"
    os.close(folder)


def long_texts():
    """Each row with a long text agrees, and soon."""
    for count, piece, row in LONG:
        place = f"{row} of {count} times {piece}"
        try:
            status = run(PROGRAMS["conformance"], {"arguments": [], "stdin": row.replace("@", piece * count)}, SECONDS)[2]
            yield None if status == 0 else f"{place}: status {status}"
        except subprocess.TimeoutExpired:
            yield f"{place}: no answer after {SECONDS} seconds"


def many_ranges():
    """Two requirements of many alternatives are compared in a moment."""
    one, other = (" || ".join(f"{major}.{minor}.0" for minor in range(ALTERNATIVES)) + " || ^9" for major in (1, 2))
    for command, wanted in (("common", ("9.0.0\n", "", 0)), ("within", ("no 1.0.0\n", "", 1))):
        place = f"{command} of {ALTERNATIVES} alternatives each"
        try:
            found = run(RANGES, {"arguments": [command, one, other]}, MOMENT)
            yield None if found == wanted else f"{place}: wanted {wanted}, found {found}"
        except subprocess.TimeoutExpired:
            yield f"{place}: no answer after {MOMENT} seconds"


def deep():
    """Overrides in one another are checked in a moment, however many there are."""
    text = '{"overrides":' + '{"a":' * LEVELS + '"1"' + "}" * LEVELS + "}"
    try:
        found = run(RANGES, {"arguments": ["check", "-"], "stdin": text}, MOMENT)
        yield None if found == ("", "", 0) else f"{LEVELS} overrides in one another: found {found}"
    except subprocess.TimeoutExpired:
        yield f"{LEVELS} overrides in one another: no answer after {MOMENT} seconds"


def named():
    """Files of one workspace that are named are checked in a moment, since its own manifest is read once."""
    own = {"workspaces": ["p/*"], "devDependencies": {f"d{n}": "^1.0.0" for n in range(NAMED)}}
    names = [f"p/{n}/package.json" for n in range(NAMED)]
    files = {"package.json": json.dumps(own), **dict.fromkeys(names, '{"dependencies": {"a": "^1.0.0"}}')}
    try:
        found = run(RANGES, {"arguments": ["check", *names], "files": files}, MOMENT)
        yield None if found == ("", "", 0) else f"{NAMED} files of a workspace: found {found}"
    except subprocess.TimeoutExpired:
        yield f"{NAMED} files of a workspace: no answer after {MOMENT} seconds"


def plenty():
    """Many arguments and many lines are answered, with no more stack than few."""
    def ask(program, arguments, given, wanted):
        what = f"{program} {[*arguments[:3], '..'][: len(arguments)]}, {PLENTY} arguments or lines"
        try:
            found = run(PROGRAMS[program], {"arguments": arguments, "stdin": given}, SOON)
        except subprocess.TimeoutExpired:
            return f"{what}: no answer after {SOON} seconds"
        return None if found == wanted else f"{what}: wanted {tuple(str(it)[:80] for it in wanted)}, found {tuple(str(it)[:80] for it in found)}"

    ranges, versions, lines = ["1"] * PLENTY, ["1.0.0"] * PLENTY, "1.0.0\n" * PLENTY
    yield ask("ranges", ["common", *ranges[:150_000]], "", ("1.0.0\n", "", 0))
    yield ask("ranges", ["explain", "--json", *ranges], "", (ONE_EXPLAINED * PLENTY, "", 0))
    yield ask("ranges", ["normal", *ranges], "", ("1\n" * PLENTY, "", 0))
    yield ask("ranges", ["overlap", *ranges], "", ("yes\n", "", 0))
    yield ask("ranges", ["overlap", *["*"] * PLENTY, "1", "2"], "", ('no "1" and "2"\n', "", 1))
    files = [f"no{number}" for number in range(PLENTY)]
    yield ask("ranges", ["check", *files], "", ("", "".join(f"ranges: {name}: no such file\n" for name in files), 3))
    yield ask("ranges", ["check", "-"], "^1..2\n" * PLENTY, ("".join(ONE_CHECKED.format(line) for line in range(1, PLENTY + 1)), "", 1))
    nested = '{"x":' + "[" * PLENTY + "]" * PLENTY + ',"dependencies":{"a":"1..2"}}'
    yield ask("ranges", ["check", "-"], nested, (f'-:1:{nested.index("1..2") + 1}: warning: a: "1..2": is a version meant? [odd-tag]\n', "", 0))
    for command, answer in (("filter", lines), ("best", "1.0.0\n"), ("outdated", "1.0.0 1.0.0\n"), ("simplify", "1\n"), ("sort", lines)):
        range_there = [] if command == "sort" else ["1"]
        yield ask("ranges", [command, *range_there, *versions], "", (answer, "", 0))
        yield ask("ranges", [command, *range_there], lines, (answer, "", 0))
    yield ask("ranges", ["filter", "1", *["--range=1"] * PLENTY], "1.0.0\n", ("1.0.0\n", "", 0))
    yield ask("ranges", ["sort"], "[" + ",".join(['"1.0.0"'] * PLENTY) + "]", (lines, "", 0))


def questions():
    """The C library answers the bindings' questions, and some about long lists, with a small stack, too. Its program holds tables of
    so many bytes, and asks here over a heap that doesn't fail."""
    subprocess.run([BINDINGS / "library.py"], check=True)
    lines, alternatives = "\n".join(["1"] * (TABLE // 2 - 64)), "||".join(["1"] * (TABLE // 3 - 64))
    versions = "\n".join(["1.0.0"] * (TABLE // 6 - 64))
    tables = [
        (BINDINGS / "questions.jsonl").read_text(),
        *(
            json.dumps(row)
            for row in (
                [["common_all", "npm", "restricted", lines], ["yes", "1.0.0"]],
                [["fits", "npm", "restricted", alternatives, "2.0.0"], ["no"]],
                [["fits", "normalized", "restricted", alternatives, "1.2.0"], ["yes"]],
                [["min_version", "npm", "restricted", alternatives], ["yes", "1.0.0"]],
                [["best", "npm", "restricted", "1", versions], ["yes", "0"]],
                [["lowest", "npm", "restricted", "1", versions], ["yes", "0"]],
                [["list_best", "npm", "restricted", "1", versions], ["yes", "0"]],
                [["list_lowest", "npm", "restricted", "1", versions], ["yes", "0"]],
            )
        ),
    ]
    kit = pathlib.Path(subprocess.run(["rt", "doc"], capture_output=True, text=True, check=True).stdout.strip()).parent
    with tempfile.TemporaryDirectory() as name:
        room = pathlib.Path(name)
        (room / "heap.c").write_text("long heap_alive(void) { return 0; }\nlong heap_limit(long n) { return n & 0; }\n")
        sources = [BINDINGS / "c/questions.c", room / "heap.c", LIBRARY, kit / "c/liblibc_c.a"]
        subprocess.run(["cc", "-O1", f"-I{BINDINGS}/c", "-o", room / "questions", *sources], check=True)
        for table in tables:
            (room / "table").write_text(table)
            flat = subprocess.run([sys.executable, BINDINGS / "flatten.py", room / "table"], capture_output=True, check=True).stdout
            (room / "flat").write_bytes(flat)
            count = len(table.splitlines())
            wanted, found = (f"{count} questions; 0 blocks are still alive\n", "", 0), run(room / "questions", {"arguments": [str(room / "flat")]})
            yield None if found == wanted else f"{table[:60]} .. of C, with a small stack: wanted {wanted}, found {found}"


def live():
    """On a terminal `filter` answers each line before the next one comes."""
    ours, theirs = terminal()
    child = subprocess.Popen([str(RANGES), "filter", "^1"], stdin=subprocess.PIPE, stdout=theirs, stderr=subprocess.DEVNULL)
    os.close(theirs)
    for line in (b"1.0.0\n", b"1.2.0\n"):
        child.stdin.write(line)
        child.stdin.flush()
        found = os.read(ours, 100) if select.select([ours], [], [], SECONDS)[0] else b""
        yield None if found == line else f"filter on a terminal, after {line}: found {found}"
    child.stdin.close()
    status = child.wait(60)
    os.close(ours)
    yield None if status == 0 else f"filter on a terminal: status {status}"


def changed():
    """A file that changes after `--fix` has read it isn't rewritten, nor is another one."""
    with room_of({"one": "1.x\n", "other": "2.x\n"}) as name:
        room = pathlib.Path(name)
        os.mkfifo(room / "late")
        child = subprocess.Popen([str(RANGES), "check", "--fix", *CANONICAL, "one", "other", "late"], cwd=room, stderr=subprocess.PIPE)
        # It opens once the files before it were read.
        with open(room / "late", "w") as late:
            (room / "one").write_text("3.x\n")
            late.write("^1.2.0\n")
        told = child.communicate(timeout=60)[1].decode()
        found = told, child.returncode, {path.name: path.read_text() for path in room.iterdir() if path.is_file()}
    wanted = "ranges: one: changed since it was read: no file is rewritten\n", 3, {"one": "3.x\n", "other": "2.x\n"}
    yield None if found == wanted else f"--fix of a file that changes: wanted {wanted}, found {found}"


def examples(page):
    """The command lines of a page and what it says they print."""
    for block in re.findall(r"^```console\n(.*?)^```$", page, re.S | re.M):
        for part in re.split(r"^\$ ", block, flags=re.M)[1:]:
            command, _, printed = part.partition("\n")
            if re.search(r"(^|\| )(ranges|npmver) ", command):
                yield command, printed


def sarif():
    """The SARIF of a file with an error, a warning and a notice has what its schema requires, each result a rule of docs/RANGES.md."""
    rules = re.findall(r"^### ([a-z0-9-]+)$", (TOP / "docs/RANGES.md").read_text(), re.M)
    given = '{\n"dependencies": {"\u00e4 b": "^1.2.3.4", "c": "^0", "d": "1"},\n"engines": {"e": "\\u22651.2.3.4"}\n}'
    row = {"arguments": ["check", "--sarif", "--canonical", "a b.json"], "files": {"a b.json": given}}
    log = json.loads(run(RANGES, row)[0])
    if schema := os.environ.get("SARIF_SCHEMA"):
        import jsonschema

        schema = json.loads(pathlib.Path(schema).read_text())
        yield from (f"SARIF's schema: {error.message}" for error in jsonschema.validators.validator_for(schema)(schema).iter_errors(log))
    (told,) = log["runs"]
    driver, results = told["tool"]["driver"], told["results"]
    places = [it["locations"][0]["physicalLocation"] for it in results]
    regions = [tuple(place["region"][key] for key in ("startLine", "startColumn", "endColumn")) for place in places]
    for what, found, wanted in (
        ("version", log["version"], "2.1.0"),
        ("columnKind", told["columnKind"], "unicodeCodePoints"),
        ("name", driver["name"], "ranges"),
        ("version of the program", f"ranges {driver.get('version')}\n", run(RANGES, {"arguments": ["--version"]})[0]),
        ("rules", sorted(it["id"] for it in driver["rules"]), sorted([*rules, "canonical", "invalid"])),
        ("texts of rules", [all(it[key]["text"] for key in RULE_TEXTS) for it in driver["rules"]], [True] * len(driver["rules"])),
        ("rules that are off", [it["id"] for it in driver["rules"] if not it["defaultConfiguration"].get("enabled", True)], RULES_OFF),
        ("ruleId", [it["ruleId"] for it in results], ["invalid", "invalid", "any-zero", "canonical", "canonical", "odd-engine"]),
        ("level", [it["level"] for it in results], ["error", "error", "warning", "note", "note", "warning"]),
        ("text", [bool(it["message"]["text"]) for it in results], [True] * 6),
        ("uri", {it["artifactLocation"]["uri"] for it in places}, {"a%20b.json"}),
        ("regions", regions, [(2, 32, 34), (2, 26, 34), (2, 43, 45), (2, 43, 45), (2, 54, 55), (3, 19, 32)]),
    ):
        yield None if found == wanted else f"{what} of SARIF: wanted {wanted}, found {found}"


def rules():
    """`ranges check --help` names each rule of docs/RANGES.md, and those that are off where nothing sets them."""
    wanted = re.findall(r"^### ([a-z0-9-]+)$", (TOP / "docs/RANGES.md").read_text(), re.M)
    told = run(RANGES, {"arguments": ["check", "--help"]})[0].partition("Rules: ")[2]
    on, _, rest = told.partition(". Unless you set them, these are off: ")
    off = rest.partition(";")[0]
    for what, found, right in (("rules", [*on.split(","), *off.split(",")], wanted), ("rules that are off", off.split(","), RULES_OFF)):
        names = sorted(name.strip() for name in found)
        yield None if names == sorted(right) else f"{what} of check --help: wanted {sorted(right)}, found {names}"


def diffs():
    """What `--dry-run` prints of files is the unified diff of what they are and of what `--fix` makes of them."""
    for count in (1, 2, 7, 8, 20):
        for end in ("", "\n"):
            old = "\n".join("1.x" if line % 7 == 0 or line % 11 == 1 else "^1.2.0" for line in range(count)) + end
            row = {"files": {"list": old}, "after": {"list": ""}}
            new = run(RANGES, row | {"arguments": ["check", "--fix", *CANONICAL, "list"]})[3]["list"]
            parts = difflib.unified_diff(old.splitlines(True), new.splitlines(True), "a/list", "b/list")
            wanted = "".join(part if part.endswith("\n") else part + "\n\\ No newline at end of file\n" for part in parts)
            found = run(RANGES, row | {"arguments": ["check", "--dry-run", *CANONICAL, "list"]})[0]
            yield None if found == wanted and new != old else f"the diff of {old!r}: wanted {wanted!r}, found {found!r}"


def applied():
    """git takes what `--dry-run` prints, in the folder where it ran, or at the top of the repository if a file lies outside that folder."""
    at_top = "ranges: a file lies outside this folder: run git apply at the top of the repository\n"
    outside = "ranges: {}: outside this folder: git apply refuses its diff\n"
    with tempfile.TemporaryDirectory() as name:
        room = pathlib.Path(name).resolve()
        top, here = room / "top", room / "top/here"
        subprocess.run(["git", "init", "-q", top], check=True)
        for folder in (here, top / "beside", room / "far"):
            folder.mkdir()
        (here / "link").symlink_to("list")
        for files, folder, told, status in (
            (["list"], here, "", 0),
            ([f"{here}/list"], here, "", 0),
            (["../here/./list"], here, "", 0),
            (["link"], here, "", 0),
            (["list", "link", "./list"], here, "", 0),
            (["t\tb\n\"\\\x01"], here, "", 0),
            (["../beside/list"], top, at_top, 0),
            (["list", f"{top}/beside/list"], top, at_top, 0),
            (["../../far/list"], here, outside.format("../../far/list"), 1),
        ):
            paths = [here / file for file in files]
            for path in paths:
                path.write_text("1.x\n")
            ran = subprocess.run([RANGES, "check", "--dry-run", *CANONICAL, *files], cwd=here, capture_output=True, text=True, timeout=60)
            git = subprocess.run(["git", "apply"], cwd=folder, input=ran.stdout, stderr=subprocess.DEVNULL, text=True, timeout=60)
            found = ran.stderr, git.returncode, {path.read_text() for path in paths}
            wanted = told, status, {"1.x\n" if status else "1\n"}
            yield None if found == wanted else f"git apply of the diff of {files}: wanted {wanted}, found {found}"


def pages():
    path = ":".join([*(str(PROGRAMS[name].parent) for name in ("ranges", "npmver")), os.environ["PATH"]])
    for name in PAGES:
        for command, printed in examples((TOP / name).read_text()):
            ran = subprocess.run(["bash", "-c", command], stdout=subprocess.PIPE, stderr=subprocess.STDOUT, env={"PATH": path}, timeout=60)
            found = ran.stdout.decode()
            yield None if found == printed else f"{name}: {command}: wanted {printed!r}, found {found!r}"


def peak(count):
    """The most memory, in kilobytes, that filtering so many lines takes."""
    child = subprocess.Popen([str(RANGES), "filter", "^1.2"], stdin=subprocess.PIPE, stdout=subprocess.DEVNULL)
    for n in range(count):
        child.stdin.write(f"{n % 7}.{n % 11}.{n}\n".encode())
    child.stdin.flush()
    status = pathlib.Path(f"/proc/{child.pid}/status").read_text()
    child.stdin.close()
    child.wait(60)
    return int(re.search(r"VmHWM:\s+(\d+) kB", status)[1])


def memory():
    few, many = peak(FEW), peak(MANY)
    yield None if many <= few + SLACK else f"{FEW} lines take {few} KB, {MANY} take {many}"


def scarce():
    """A line that memory has no room for ends the program with the status for that."""
    limited = ["bash", "-c", f'ulimit -v {SCARCE} && exec "$0" "$@"', str(RANGES)]
    for arguments in (["filter", "*"], ["best", "*"], ["sort"]):
        ran = subprocess.run([*limited, *arguments], input=b"1" * (1024 * SCARCE), capture_output=True, timeout=60)
        found = (ran.stdout.decode(), ran.stderr.decode(), ran.returncode)
        yield None if found == ("", "ranges: out of memory\n", 5) else f"{arguments}, where memory is scarce: found {found}"


def closed():
    """Output through a pipe that closes ends with the status 6, and without a message."""
    lines = "1.0.0\n" * MANY
    child = subprocess.Popen([str(RANGES), "filter", "*"], stdin=subprocess.PIPE, stdout=subprocess.PIPE, stderr=subprocess.PIPE)
    child.stdout.close()
    try:
        child.stdin.write(lines.encode())
        child.stdin.close()
    except BrokenPipeError:
        pass
    found = (child.stderr.read().decode(), child.wait(60))
    yield None if found == ("", 6) else f"filter with a closed pipe: found {found}"


def main():
    for program in PROGRAMS.values():
        if not program.is_file():
            sys.exit(f"{program} isn't built: run rt ci first")
    checks = (rows, unwritable, unreadable, long_texts, many_ranges, deep, named, plenty, questions, sarif, rules, diffs, applied, live, changed, pages, memory, scarce, closed)
    if FOLDER:
        checks = (rows,)
    outcomes = [outcome for check in checks for outcome in check()]
    wrong = [outcome for outcome in outcomes if outcome]
    print(*wrong, sep="\n", end="\n" if wrong else "")
    print(f"{len(outcomes) - len(wrong)} of {len(outcomes)} hold")
    sys.exit(1 if wrong else 0)


main()
