#!/usr/bin/env python3
"""Compares what SQLite finds with sets of versions that tools/intervals/check.py makes of node-semver's rules alone.

    check.py EXTENSION [MATCHES] [SEED]    MATCHES: so many, a million if it isn't given

Random ranges are asked of some 7,000 versions, by semver_matches in each row and by semver_scans with an index. Keys and the order by
SEMVER are compared, too. It needs the program sqlite3. The last line counts; the status is 1 where something differs."""
import os, random, subprocess, sys

sys.path.insert(0, os.path.join(os.path.dirname(os.path.abspath(__file__)), "../../tools/intervals"))
from check import SORT_KEYS, VERSIONS, random_sets, text

TABLE = """
.load {extension}
create table versions(id integer primary key, version text);
{rows}
create index by_key on versions(semver_is_pre(version), semver_key(version));
select semver_key(version) from versions order by id;
select group_concat(id) from (select id from versions order by version collate SEMVER, id);
"""
QUESTION = """
select coalesce(group_concat(id), '') from (select id from versions where semver_matches('{range}', version, {pre}) order by id);
select coalesce(group_concat(id), '') from (
  select v.id from semver_scans('{range}', {pre}) s join versions v
    on semver_is_pre(v.version) = s.is_pre and semver_key(v.version) >= s.low and semver_key(v.version) < s.high order by v.id);
"""


def ids(mask):
    return ",".join(str(at) for at in range(len(VERSIONS)) if mask >> at & 1)


def asked(source, matches):
    """Ranges, which pre-releases match, and the versions that do."""
    for _ in range(-(-matches // (2 * len(VERSIONS)))):
        ranges = random_sets(source)[0]
        for pre in (0, 1):
            mask = 0
            for it in ranges:
                mask |= it.mask(bool(pre))
            yield " || ".join(it.text for it in ranges), pre, ids(mask)


def main():
    extension = os.path.abspath(sys.argv[1])
    questions = list(asked(random.Random(int(sys.argv[3]) if len(sys.argv) > 3 else 1), int(sys.argv[2]) if len(sys.argv) > 2 else 1_000_000))
    rows = "".join(f"insert into versions values ({at}, '{text(it)}');\n" for at, it in enumerate(VERSIONS))
    script = TABLE.format(extension=extension, rows=f"begin;\n{rows}commit;") + "".join(QUESTION.format(range=it, pre=pre) for it, pre, _ in questions)
    ran = subprocess.run(["sqlite3", "-batch", "-bail", ":memory:"], input=script.encode(), capture_output=True)
    if ran.returncode or ran.stderr:
        sys.exit(f"sqlite3 ends with the status {ran.returncode}: {ran.stderr.decode()}")
    printed = ran.stdout.decode().split("\n")[:-1]
    wanted = [key.decode() for key in SORT_KEYS] + [ids((1 << len(VERSIONS)) - 1)]
    wanted += [it for _, _, found in questions for it in (found, found)]
    differ = [at for at, (one, other) in enumerate(zip(printed, wanted)) if one != other]
    for at in differ[:5]:
        print(f"line {at}: {printed[at][:200]}, and not {wanted[at][:200]}")
    print(f"SQLite: {len(questions) * len(VERSIONS)} matches in each row, and by an index, {len(differ)} lines differ")
    return int(bool(differ) or len(printed) != len(wanted))


if __name__ == "__main__":
    sys.exit(main())
