#!/usr/bin/env python3
"""Compares lowest versions, containment, equivalence and scans of random ranges with sets of versions, written here from node-semver's
rules alone. Run at the top of the project, after rt ci (or after rt run in crates/conformance).

    tools/intervals/check.py [COUNT] [SEED]    COUNT: so many questions, and so many matches by scans, 20,000 if it isn't given

A set of versions is a bit mask over some thousands of versions, in the order of precedence. They are so dense that the lowest version of
each answer is among them: with each bound stand the versions next to it. Scans are asked with the sort keys of all these versions. The
last lines count; the status is 1 where something differs."""
import bisect, itertools, json, pathlib, random, re, subprocess, sys

TOP = pathlib.Path(__file__).resolve().parents[2]
CONFORMANCE = TOP / "crates/conformance/out/conformance"
MOST = 2**64 - 1

# The numbers of bounds, and those of versions: each number that follows one of a bound is among them.
BOUND_NUMBERS = (0, 1, 2, MOST - 1, MOST)
NUMBERS = (0, 1, 2, 3, MOST - 1, MOST)
BOUND_PRES = (("0",), ("00",), ("1",), ("a",), ("a", "0"), ("a", "b"), ("-",), ("rc", "1"), (str(MOST),), (str(MOST + 1),), ("A",))
# What follows a pre-release is the same with `0` behind it.
PRES = {("0",)} | {pre + ("0",) * count for pre in BOUND_PRES for count in range(3)}


def identifier_key(identifier):
    """Numbers that fit come first, by their value and then by their zeros; the other identifiers follow, by their characters."""
    number = int(identifier) if identifier.isdigit() else MOST + 1
    return (0, number, identifier) if number <= MOST else (1, 0, identifier)


def precedence(version):
    numbers, pre = version
    return numbers, not pre, tuple(map(identifier_key, pre))


VERSIONS = sorted(((numbers, pre) for numbers in itertools.product(NUMBERS, repeat=3) for pre in [(), *PRES]), key=precedence)
KEYS = [precedence(version) for version in VERSIONS]
ALL = (1 << len(VERSIONS)) - 1
RELEASES = sum(1 << at for at, (_, pre) in enumerate(VERSIONS) if not pre)
OF_NUMBERS = {}
for place, (numbers, _) in enumerate(VERSIONS):
    OF_NUMBERS[numbers] = OF_NUMBERS.get(numbers, 0) | 1 << place


def text(version):
    numbers, pre = version
    return ".".join(map(str, numbers)) + ("-" + ".".join(pre) if pre else "")


def lowest(mask):
    return VERSIONS[(mask & -mask).bit_length() - 1] if mask else None


ZERO = (0, 0, 0), ()


class Range:
    """At most one comparator for each end: whether the version itself matches, and the version. A range with an end starts at 0.0.0, or
    above."""

    def __init__(self, start, end):
        from_zero = end and (start is None or precedence(start[1]) < precedence(ZERO))
        self.start, self.end = (True, ZERO) if from_zero else start, end
        written = [f">{'=' * start[0]}{text(start[1])}"] if start else []
        written += [f"<{'=' * end[0]}{text(end[1])}"] if end else []
        self.text = " ".join(written) or "*"

    def mask(self, admitted):
        found, admits = ALL, RELEASES
        if self.start:
            inclusive, version = self.start
            at = (bisect.bisect_left if inclusive else bisect.bisect_right)(KEYS, precedence(version))
            found = found >> at << at
        if self.end:
            inclusive, version = self.end
            at = (bisect.bisect_right if inclusive else bisect.bisect_left)(KEYS, precedence(version))
            found &= (1 << at) - 1
        # A pre-release matches only where a bound is a pre-release of the same numbers.
        for bound in (self.start, self.end):
            if bound and bound[1][1]:
                admits |= OF_NUMBERS[bound[1][0]]
        return found if admitted else found & admits


def random_numbers(source):
    return tuple(source.choice(BOUND_NUMBERS) for _ in range(3))


def random_range(source, near):
    def bound():
        if source.random() < 0.08:
            return None
        numbers = source.choice(near) if source.random() < 0.8 else random_numbers(source)
        return source.random() < 0.5, (numbers, source.choice(((), source.choice(BOUND_PRES))))

    return Range(bound(), bound())


def random_sets(source):
    """Two to four sets of ranges, near one another; sometimes the second is a part of the first, or the other way round."""
    near = [random_numbers(source) for _ in range(source.choice((1, 2, 3)))]
    sets = [[random_range(source, near) for _ in range(source.choice((1, 1, 2, 3, 4, 6, 9)))] for _ in range(source.choice((2, 2, 3, 4)))]
    if source.random() < 0.2:
        sets[1] = sets[0] + sets[1] if source.random() < 0.5 else source.sample(sets[0], len(sets[0]))
    return sets


def questions(sets):
    """Each question of these sets, with its answer by the masks."""
    texts = [" || ".join(each.text for each in ranges) for ranges in sets]
    for admitted in (False, True):
        flag = "admitted" if admitted else "restricted"
        masks = []
        for ranges in sets:
            mask = 0
            for each in ranges:
                mask |= each.mask(admitted)
            masks.append(mask)
        common = ALL
        for mask in masks:
            common &= mask
        one, other = masks[:2]
        for name, arguments, mask in (
            ("min-version", texts[:1], one),
            ("common-version", texts[:2], one & other),
            ("common-of-all", texts, common),
            ("version-outside", texts[:2], one & ~other),
            ("version-outside", texts[1::-1], other & ~one),
        ):
            found = lowest(mask)
            yield name, flag, arguments, text(found) if found else "none"
        for name, arguments, holds in (
            ("is-subset", texts[:2], one & ~other == 0),
            ("is-subset", texts[1::-1], other & ~one == 0),
            ("is-equivalent", texts[:2], one == other),
        ):
            yield name, flag, arguments, "yes" if holds else "no"


def rows(source, count):
    made = 0
    while made < count:
        for name, flag, arguments, answer in questions(random_sets(source)):
            yield json.dumps([[name, "npm", flag, *arguments], [answer]])
            made += 1


# ---- scans


def number_key(number):
    return chr(64 + len(str(number))) + str(number)


def sort_key(version):
    numbers, pre = version
    front = "".join(map(number_key, numbers))
    if not pre:
        return front + "~"
    keys = [f"#{number_key(key[1])}{it}!" if key[0] == 0 else f"${it}!" for it in pre for key in [identifier_key(it)]]
    return f"{front}-{''.join(keys)}!"


SORT_KEYS = [sort_key(version).encode() for version in VERSIONS]


def found_by(scans):
    """The mask of the versions that some scan of their kind finds."""
    found = 0
    for kind, low, high in scans:
        start, end = bisect.bisect_left(SORT_KEYS, low.encode()), bisect.bisect_left(SORT_KEYS, high.encode())
        between = (1 << max(start, end)) - (1 << start)
        found |= between & (RELEASES if kind == "release" else ALL & ~RELEASES)
    return found


def are_sorted(scans):
    """No scan is empty, and those of a kind are apart."""
    return all(low < high for _, low, high in scans) and all(
        one[0] < other[0] if one[0] != other[0] else one[2] < other[1]
        for one, other in itertools.pairwise([("01"[kind == "pre"], low.encode(), high.encode()) for kind, low, high in scans])
    )


def wrong_scans(source, count):
    """Asks for scans, and yields the ranges of those that don't find what the ranges match."""
    asked = []
    for _ in range(-(-count // (2 * len(VERSIONS)))):
        ranges = random_sets(source)[0]
        for admitted in (False, True):
            mask = 0
            for each in ranges:
                mask |= each.mask(admitted)
            asked.append((" || ".join(each.text for each in ranges), admitted, mask))
    # The program prints each answer that isn't the one in its row: none is.
    table = [json.dumps([["scans", "npm", "admitted" if admitted else "restricted", given], ["?"]]) for given, admitted, _ in asked]
    printed = subprocess.run([CONFORMANCE], input="\n".join(table).encode(), capture_output=True).stdout.decode()
    answers = [json.loads(it) for it in re.findall(r"^    answered (\[.*\])$", printed, re.M)]
    if len(answers) != len(asked):
        yield f"{len(answers)} answers of {len(asked)}"
        return
    for (given, admitted, mask), answer in zip(asked, answers):
        scans = list(zip(*[iter(answer)] * 3))
        if len(answer) % 3 or found_by(scans) != mask or not are_sorted(scans):
            yield f"{'admitted' if admitted else 'restricted'} {given}: {answer}"


def main():
    count = int(sys.argv[1]) if len(sys.argv) > 1 else 20_000
    source = random.Random(int(sys.argv[2]) if len(sys.argv) > 2 else 1)
    table = "\n".join(rows(source, count))
    ran = subprocess.run([CONFORMANCE], input=table.encode(), capture_output=True)
    printed = ran.stdout.decode()
    counts = [tuple(map(int, it)) for it in re.findall(r"^[\w-]+: (\d+) asked, (\d+) differ$", printed, re.M)]
    asked, wrong = sum(it[0] for it in counts), sum(it[1] for it in counts)
    print("".join(line + "\n" for line in printed.splitlines()[:20] if wrong), end="")
    if asked < count or "lines that aren't rows: 0" not in printed or (wrong == 0) != (ran.returncode == 0):
        print(f"conformance ends with the status {ran.returncode}, and asks {asked} of {count}: {ran.stderr.decode()}")
        return 1
    print(f"intervals: {asked} questions, {wrong} differ")
    if SORT_KEYS != sorted(SORT_KEYS):
        print("intervals: the sort keys aren't in the order of precedence")
        return 1
    scans = list(wrong_scans(source, count))
    print(*scans[:10], sep="\n", end="\n" if scans else "")
    matches = -(-count // (2 * len(VERSIONS))) * 2 * len(VERSIONS)
    print(f"intervals: {matches} matches by scans, {len(scans)} lists of scans differ")
    return 1 if wrong or scans else 0


if __name__ == "__main__":
    sys.exit(main())
