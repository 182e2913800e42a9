#!/usr/bin/env python3
"""Loads versions of packages into SQLite and PostgreSQL, asks both what docs/PERFORMANCE.md has a table of, each question in several ways, and
prints that table. All ways must have the same answer.

    tools/scale/measure.py LIBRARY [VERSIONS]

LIBRARY is where make install put the C library and SQLite's extension (its PREFIX). VERSIONS: so many, 5,000,000 if it isn't given, of a
fiftieth as many packages; there are a twenty-fifth as many dependencies. Times are in milliseconds, the least of five."""
import os, random, re, subprocess, sys, tempfile
from pathlib import Path

TOP = Path(__file__).resolve().parents[2]
LIBRARY = Path(sys.argv[1]).resolve()
COUNT = int(sys.argv[2]) if len(sys.argv) > 2 else 5_000_000
TIMES = 5
RANGES = ("^1.2", "^4.5.6", "1.2 || ^3.1 || 5.0.0 - 5.3.0")
BIG = "p0"


# ---- the rows


def versions_of(source, count):
    """So many versions of one package: each follows the one before, and one in six is a pre-release."""
    major, minor, patch = source.choice(((0, 0, 1), (0, 1, 0), (1, 0, 0)))
    made = 0
    while made < count:
        if source.random() < 0.1:
            for number in range(min(source.randint(1, 3), count - made)):
                yield f"{major}.{minor}.{patch}-{source.choice(('rc', 'beta', 'alpha'))}.{number}"
                made += 1
        if made < count:
            yield f"{major}.{minor}.{patch}"
            made += 1
        kind = source.random()
        if kind < 0.65:
            patch += 1
        elif kind < 0.96:
            minor, patch = minor + 1, 0
        else:
            major, minor, patch = major + 1, 0, 0


def range_of(source, version):
    numbers = version.partition("-")[0].split(".")
    kind = source.random()
    if kind < 0.75:
        return "^" + version
    if kind < 0.9:
        return "~" + ".".join(numbers[:2])
    return f">={version} <{int(numbers[0]) + 2}" if kind < 0.97 else version


def write_rows(folder):
    source, packages = random.Random(1), COUNT // 50
    # The first package has the most versions, and the others fewer and fewer.
    share = COUNT / sum((n + 1) ** -0.6 for n in range(packages))
    kept = []
    with open(folder / "versions", "w") as versions:
        for package in range(packages):
            all_of = list(versions_of(source, max(1, round(share * (package + 1) ** -0.6))))
            versions.writelines(f"p{package}\t{it}\n" for it in all_of)
            kept.append(source.sample(all_of, min(len(all_of), 4)))
    with open(folder / "dependencies", "w") as dependencies:
        for number in range(COUNT // 25):
            package = source.randrange(packages)
            dependencies.write(f"{number}\tp{package}\t{range_of(source, source.choice(kept[package]))}\n")


# ---- asking: each question is a name, and a statement that returns one row


def answers(printed):
    return [it for it in printed.split("\n") if it and not re.match(r"(Time|Run Time|Timing)", it)]


def report(database, name, way, times, answer, known):
    """Prints a row of the table, and compares the answer with that of the other ways."""
    name = name.replace("|", "\\|")
    print(f"| {database} | {name} | {way} | {min(times):.{0 if min(times) >= 10 else 2}f} |", flush=True)
    if known.setdefault(name, answer) != answer:
        sys.exit(f"{name}, {way}: the answer is {answer[:200]}, and not {known[name][:200]}")


class Sqlite:
    name = "SQLite"

    def __init__(self, folder):
        self.folder, self.head = folder, f".load {LIBRARY}/lib/mod_deno_semver\n"
        self.run(
            "pragma journal_mode=off; pragma synchronous=off;\n"
            "create table versions(package text, version text);\ncreate table dependencies(id integer primary key, package text, range text);\n"
            f".mode tabs\n.import {folder}/versions versions\n.import {folder}/dependencies dependencies\n"
            "create index by_key on versions(semver_is_pre(version), semver_key(version));\n"
            "create index by_package on versions(package, semver_is_pre(version), semver_key(version));\n"
            "create table scans(dependency integer, is_pre, low, high);\n"
            "insert into scans select d.id, s.is_pre, s.low, s.high from dependencies d, semver_scans(d.range) s;\n"
            "create index by_bounds on scans(is_pre, low, high);\nanalyze;\n"
        )

    def run(self, script):
        command = ["sqlite3", "-batch", "-bail", str(self.folder / "db")]
        ran = subprocess.run(command, input=self.head + script, capture_output=True, text=True)
        if ran.returncode or ran.stderr:
            sys.exit(f"SQLite: {ran.stderr}")
        return ran.stdout

    def ask(self, statement):
        printed = self.run("pragma mmap_size=8000000000;\npragma cache_size=-2000000;\n.timer on\n" + (statement + ";\n") * TIMES)
        # SQLite prints the time that passed in milliseconds, and that of the processor more exactly.
        times = [1000 * (float(user) + float(system)) for user, system in re.findall(r"user ([\d.]+) sys ([\d.]+)", printed)]
        return times[-TIMES:], answers(printed)[-1]


class Postgres:
    name = "PostgreSQL"

    def __init__(self, folder):
        script = f"postgres={TOP}/bindings/postgres; library={LIBRARY}; . $postgres/server.sh; trap stop EXIT; install; initialize; start -c shared_buffers=4GB -c work_mem=256MB -c max_parallel_workers_per_gather=0 -c jit=off -c autovacuum=off; echo $root $bin $PGHOST; read wait"
        self.server = subprocess.Popen(["sh", "-c", script], stdin=subprocess.PIPE, stdout=subprocess.PIPE, text=True)
        _, self.bin, host = self.server.stdout.readline().split()
        self.environment = {**os.environ, "PGHOST": host, "PGUSER": "postgres", "PGDATABASE": "postgres", "PGOPTIONS": "-c client_min_messages=warning"}
        self.run(
            "create extension deno_semver;\ncreate table texts(package text, version text);\n"
            "create table versions(package text, version semver);\ncreate table dependencies(id integer, package text, range semver_range);\n"
        )
        for table in ("texts", "versions"):
            times, _ = self.timed(f"\\copy {table} from '{folder}/versions'\n")
            print(f"| {self.name} | load | `COPY` into a column of type {'text' if table == 'texts' else 'semver'} | {times[0]:.0f} |", flush=True)
        self.run(
            f"\\copy dependencies from '{folder}/dependencies'\ncreate index by_package on versions(package, version);\ncreate index by_version on versions(version);\n"
            "create table keys as select semver_is_pre(version) as is_pre, semver_key(version) as key from versions;\ncreate index by_key on keys(is_pre, key);\n"
            "create table scans as select d.id as dependency, s.* from dependencies d, semver_scans(d.range) s;\n"
            "create index by_bounds on scans(is_pre, low, high);\nvacuum analyze;\n"
        )

    def run(self, script):
        command = [f"{self.bin}/psql", "-XqAt", "-v", "ON_ERROR_STOP=1"]
        ran = subprocess.run(command, input=script, capture_output=True, text=True, env=self.environment)
        if ran.returncode or ran.stderr:
            sys.exit(f"PostgreSQL: {ran.stderr}")
        return ran.stdout

    def timed(self, script):
        printed = self.run("\\timing on\n" + script)
        return [float(it) for it in re.findall(r"^Time: ([\d.]+) ms", printed, re.M)], answers(printed)

    def ask(self, statement):
        *settings, asked = statement.split("; ")
        times, all_of = self.timed("".join(it + ";\n" for it in settings) + (asked + ";\n") * TIMES)
        return times[-TIMES:], all_of[-1]

    def stop(self):
        self.server.communicate("\n")


# ---- the questions


def sqlite_questions():
    between = "semver_is_pre(v.version) = s.is_pre and semver_key(v.version) >= s.low and semver_key(v.version) < s.high"
    for text in RANGES:
        name = f"how many match `{text}`"
        yield name, "`semver_matches` in each row", f"select count(*) from versions where semver_matches('{text}', version)"
        yield name, "`semver_scans` and an index", f"select count(*) from semver_scans('{text}') s join versions v on {between}"
    name = "the highest match of the largest package"
    yield name, "`semver_highest`", f"select semver_highest(version, '^3') from versions where package = '{BIG}'"
    yield name, "`semver_scans` and an index", f"select v.version from semver_scans('^3') s join versions v on v.package = '{BIG}' and {between} order by semver_key(v.version) desc limit 1"
    name = "dependencies that accept 1.3.0"
    yield name, "`semver_matches` in each row", "select count(*) from dependencies where semver_matches(range, '1.3.0')"
    yield name, "an index of scans", "select count(*) from scans where is_pre = 0 and low <= semver_key('1.3.0') and high > semver_key('1.3.0')"


def postgres_questions():
    rows = "set enable_indexscan = off; set enable_bitmapscan = off; set enable_indexonlyscan = off; "
    for text in RANGES:
        name = f"how many match `{text}`"
        yield name, "`semver_matches` of strings in each row", f"select count(*) from texts where semver_matches('{text}', version)"
        yield name, "`<@` in each row", f"{rows}select count(*) from versions where version <@ '{text}'"
        yield name, "`<@` by an index", f"select count(*) from versions where version <@ '{text}'"
        yield name, "`semver_scans` and an index of keys", f"select count(*) from semver_scans('{text}') s join keys k on k.is_pre = s.is_pre and key >= low and key < high"
    name = "the highest match of the largest package"
    yield name, "`<@` by an index", f"select version from versions where package = '{BIG}' and version <@ '^3' order by version desc limit 1"
    name = "the highest match of each dependency"
    yield name, "`<@` by an index", "select count(v.version), md5(string_agg(v.version::text, ',' order by d.id)) from dependencies d left join lateral (select version from versions v where v.package = d.package and v.version <@ d.range order by version desc limit 1) v on true"
    name = "dependencies that accept 1.3.0"
    yield name, "`<@` in each row", "select count(*) from dependencies where '1.3.0'::semver <@ range"
    yield name, "an index of scans", "select count(*) from scans where not is_pre and low <= semver_key('1.3.0') and high > semver_key('1.3.0')"


def main():
    known = {}
    with tempfile.TemporaryDirectory() as name:
        folder = Path(name)
        folder.chmod(0o755)
        write_rows(folder)
        print(f"{COUNT:,} versions of {COUNT // 50:,} packages, {COUNT // 25:,} dependencies\n\n| | Question | Asked by | ms |\n|---|---|---|---|", flush=True)
        postgres = Postgres(folder)
        try:
            for asked, way, statement in postgres_questions():
                report("PostgreSQL", asked, way, *postgres.ask(statement), known)
        finally:
            postgres.stop()
        sqlite = Sqlite(folder)
        for asked, way, statement in sqlite_questions():
            report("SQLite", asked, way, *sqlite.ask(statement), known)


if __name__ == "__main__":
    main()
