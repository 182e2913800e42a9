#!/usr/bin/env python3
"""Compares what PostgreSQL finds with sets of versions that tools/intervals/check.py makes of node-semver's rules alone.

    check.py PSQL [MATCHES] [SEED]    PSQL: the program, whose environment says which server; MATCHES: so many, a million if it isn't given

Random ranges are asked of some 7,000 versions: by an index of versions, in each row, and by scans of an index of keys. Keys and the order
of versions are compared, too. The last line counts; the status is 1 where something differs."""
import os, random, subprocess, sys

sys.path.insert(0, os.path.join(os.path.dirname(os.path.abspath(__file__)), "../../tools/intervals"))
from check import SORT_KEYS, VERSIONS, random_sets, text

SETUP = """
create database checked;
\\connect checked
set client_min_messages = error; -- not of ranges that match nothing
create extension deno_semver;
create table versions(id integer primary key, version semver);
copy versions from stdin;
{rows}
\\.
create index by_version on versions(version);
create index by_key on versions(semver_is_pre(version), semver_key(version));
analyze versions;
select semver_key(version) from versions order by id;
select string_agg(id::text, ',' order by version, id) from versions;
"""
# The ways to ask, by npm's rule for pre-releases and without it; each returns one line.
RESTRICTED = (
    "set enable_seqscan = off; select coalesce(string_agg(id::text, ',' order by id), '') from versions where version <@ '{range}'; reset enable_seqscan;",
    "set enable_indexscan = off; set enable_bitmapscan = off; select coalesce(string_agg(id::text, ',' order by id), '') from versions"
    " where version <@ '{range}'; reset enable_indexscan; reset enable_bitmapscan;",
)
BOTH = (
    "select coalesce(string_agg(id::text, ',' order by id), '') from versions where semver_matches('{range}', version, {pre});",
    "select coalesce(string_agg(v.id::text, ',' order by v.id), '') from semver_scans('{range}', {pre}) s join versions v"
    " on semver_is_pre(version) = s.is_pre and semver_key(version) >= s.low and semver_key(version) < s.high;",
)


def ids(mask):
    return ",".join(str(at) for at in range(len(VERSIONS)) if mask >> at & 1)


def asked(source, matches):
    """Questions in SQL, each with its answer."""
    for _ in range(-(-matches // (2 * len(VERSIONS)))):
        ranges = random_sets(source)[0]
        for pre in (False, True):
            mask = 0
            for it in ranges:
                mask |= it.mask(pre)
            for way in BOTH + (() if pre else RESTRICTED):
                yield way.format(range=" || ".join(it.text for it in ranges), pre=str(pre).lower()), ids(mask)


def main():
    questions = list(asked(random.Random(int(sys.argv[3]) if len(sys.argv) > 3 else 1), int(sys.argv[2]) if len(sys.argv) > 2 else 1_000_000))
    script = SETUP.format(rows="\n".join(f"{at}\t{text(it)}" for at, it in enumerate(VERSIONS)))
    script += "\n".join(question for question, _ in questions)
    ran = subprocess.run([sys.argv[1], "-XqAt", "-v", "ON_ERROR_STOP=1"], input=script.encode(), capture_output=True)
    if ran.returncode or ran.stderr:
        sys.exit(f"psql ends with the status {ran.returncode}: {ran.stderr.decode()}")
    printed = ran.stdout.decode().split("\n")[:-1]
    wanted = [key.decode() for key in SORT_KEYS] + [ids((1 << len(VERSIONS)) - 1)] + [answer for _, answer in questions]
    differ = [at for at, (one, other) in enumerate(zip(printed, wanted)) if one != other]
    for at in differ[:5]:
        print(f"line {at}: {printed[at][:200]}, and not {wanted[at][:200]}: {questions[at - len(VERSIONS) - 1][0] if at > len(VERSIONS) else ''}")
    print(f"PostgreSQL: {len(questions) * len(VERSIONS)} matches by indexes and in each row, {len(differ)} lines differ")
    return int(bool(differ) or len(printed) != len(wanted))


if __name__ == "__main__":
    sys.exit(main())
