"""Questions about strings, ranges and versions."""

from __future__ import annotations

import json
from ctypes import byref, c_int8, c_size_t
from typing import Any, Dict, Iterable, List, Literal, NamedTuple, NoReturn, Optional, Tuple, TypeVar, Union, get_args

from ._calls import (
    CALLS,
    INVALID_RANGE,
    INVALID_VERSION,
    NO,
    NO_INCREMENT,
    YES,
    encoded,
    fail_package,
    fail_range,
    fail_version,
    grammar_number,
    invalid_range,
    pre_number,
    read,
    wrong_type,
)
from ._errors import IncrementError, InvalidPackage, InvalidRange, InvalidVersion, SemverError
from ._values import Grammar, Range, Version, range_text

AnyRange = Union[str, Range]
AnyVersion = Union[str, Version]
V = TypeVar("V", str, Version)


def _version_text(version: AnyVersion, name: str, index: Optional[int] = None) -> bytes:
    if isinstance(version, Version):
        return str(version).encode()
    return encoded(version, name, InvalidVersion, index)


def _lines(texts: Iterable[bytes]) -> bytes:
    """Texts as lines. A line end in a version or a range is whitespace, and written as a space here."""
    return b"".join(text.replace(b"\n", b" ").replace(b"\r", b" ") + b"\n" for text in texts)


def version_lines(versions: Iterable[V]) -> Tuple[List[V], bytes]:
    if isinstance(versions, (str, Version)):
        wrong_type(versions, "versions", "an iterable of versions")
    listed = list(versions)
    return listed, _lines(_version_text(version, "versions", index) for index, version in enumerate(listed))


def matches(range: AnyRange, version: AnyVersion, *, grammar: Optional[Grammar] = None, pre_releases: bool = False) -> bool:
    """Whether the version matches the range.

    >>> matches("^1.2", "1.3.0")
    True
    >>> matches("latest", "1.3.0")
    Traceback (most recent call last):
    deno_semver._errors.TagError: 'latest': The range is a tag.
    """
    return _ask("fits", range, version, grammar, pre_releases)


def _ask(name: str, range: AnyRange, version: AnyVersion, grammar: Optional[Grammar], pre_releases: bool) -> bool:
    """Asks about a range and a version."""
    source, text, number = range_text(range, "range", grammar)
    other = _version_text(version, "version")
    code, _ = read(name, number, source, len(source), other, len(other), pre_number(pre_releases))
    if code >= 0:
        return code == YES
    if code == INVALID_VERSION:
        return fail_version(code, str(version))
    return fail_range(code, text, number)


def is_above(version: AnyVersion, range: AnyRange, *, grammar: Optional[Grammar] = None, pre_releases: bool = False) -> bool:
    """Whether the version is above each version that the range matches.

    >>> is_above("2.0.0", "^1.2"), is_above("1.9.0", "^1.2 || 3")
    (True, False)
    """
    return _ask("above", range, version, grammar, pre_releases)


def is_below(version: AnyVersion, range: AnyRange, *, grammar: Optional[Grammar] = None, pre_releases: bool = False) -> bool:
    """Whether the version is below each version that the range matches.

    >>> is_below("1.1.9", "^1.2")
    True
    """
    return _ask("below", range, version, grammar, pre_releases)


def filter(
    range: AnyRange,
    versions: Iterable[V],
    *,
    grammar: Optional[Grammar] = None,
    pre_releases: bool = False,
    skip_invalid: bool = False,
) -> List[V]:
    """The versions that match, in their order.

    >>> filter("^1.2 || 3", ["1.1.9", "1.2.0", "2.0.0", "3.4.5"])
    ['1.2.0', '3.4.5']
    >>> filter("*", ["1.0.0", "nightly"], skip_invalid=True)
    ['1.0.0']
    """
    source, text, number = range_text(range, "range", grammar)
    listed, lines = version_lines(versions)
    answers, needed = (c_int8 * max(len(listed), 1))(), c_size_t()
    code = CALLS["filter"](
        number, source, len(source), lines, len(lines), pre_number(pre_releases), answers, len(answers), byref(needed)
    )
    if code != YES:
        return fail_range(code, text, number)
    found = []
    for index, version in enumerate(listed):
        if answers[index] == YES:
            found.append(version)
        elif answers[index] < 0 and not skip_invalid:
            fail_version(answers[index], str(version), index)
    return found


def _valid(versions: Iterable[V]) -> List[V]:
    """The versions, without the invalid ones."""
    return filter("*", versions, pre_releases=True, skip_invalid=True)


def _best(
    call: str, range: AnyRange, versions: Iterable[V], grammar: Optional[Grammar], pre_releases: bool, skip_invalid: bool
) -> Optional[V]:
    source, text, number = range_text(range, "range", grammar)
    listed, lines = version_lines(_valid(versions) if skip_invalid else versions)
    place = c_size_t()
    code = CALLS[call](number, source, len(source), lines, len(lines), pre_number(pre_releases), byref(place))
    if code >= 0:
        return listed[place.value] if code == YES else None
    if code == INVALID_VERSION:
        return fail_version(code, str(listed[place.value]), place.value)
    return fail_range(code, text, number)


def best(
    range: AnyRange,
    versions: Iterable[V],
    *,
    grammar: Optional[Grammar] = None,
    pre_releases: bool = False,
    skip_invalid: bool = False,
) -> Optional[V]:
    """The highest of the versions that matches, the first of equal ones, or None.

    >>> best("^1.2", ["1.2.0", "1.10.0", "2.0.0"])
    '1.10.0'
    """
    return _best("best", range, versions, grammar, pre_releases, skip_invalid)


def lowest(
    range: AnyRange,
    versions: Iterable[V],
    *,
    grammar: Optional[Grammar] = None,
    pre_releases: bool = False,
    skip_invalid: bool = False,
) -> Optional[V]:
    """The lowest of the versions that matches, the first of equal ones, or None.

    >>> lowest("^1.2", ["1.10.0", "1.2.0", "1.0.0"])
    '1.2.0'
    """
    return _best("lowest", range, versions, grammar, pre_releases, skip_invalid)


def simplify(range: AnyRange, versions: Iterable[V], *, grammar: Optional[Grammar] = None, pre_releases: bool = False) -> str:
    """A short range that matches the same versions of the list: the range as you wrote it or, if that is shorter, the ranges in which they
    match, in canonical form.

    >>> simplify("1.2.0 || 1.3.0", ["1.1.0", "1.2.0", "1.3.0"])
    '>=1.2.0'
    """
    source, text, number = range_text(range, "range", grammar)
    listed, lines = version_lines(versions)
    place = c_size_t()
    arguments = (number, source, len(source), lines, len(lines), pre_number(pre_releases))
    code, written = read("simplify", *arguments, after=(byref(place),))
    if code == YES:
        return written
    if code == INVALID_VERSION:
        return fail_version(code, str(listed[place.value]), place.value)
    return fail_range(code, text, number)


def sort(versions: Iterable[V], *, reverse: bool = False, skip_invalid: bool = False) -> List[V]:
    """The versions by precedence, the lowest first, or with `reverse` the highest. Those that differ only in the build keep their order.

    >>> sort(["1.10.0", "1.9.0", "1.9.0-rc.1"])
    ['1.9.0-rc.1', '1.9.0', '1.10.0']
    >>> sort(["1.10.0", "nightly", "1.9.0"], skip_invalid=True)
    ['1.9.0', '1.10.0']
    """
    listed, lines = version_lines(_valid(versions) if skip_invalid else versions)
    if reverse:
        listed.reverse()
        lines = _lines(_version_text(version, "versions") for version in listed)
    places, needed, place = (c_size_t * max(len(listed), 1))(), c_size_t(), c_size_t()
    code = CALLS["sort"](lines, len(lines), places, len(places), byref(needed), byref(place))
    if code != YES:
        index = len(listed) - 1 - place.value if reverse else place.value
        return fail_version(code, str(listed[place.value]), index)
    ordered = [listed[place] for place in places[: needed.value]]
    return ordered[::-1] if reverse else ordered


def compare(one: AnyVersion, other: AnyVersion) -> int:
    """-1, 0 or 1: the order of two versions by precedence, which ignores builds.

    >>> compare("1.2.0", "1.10.0")
    -1
    """
    texts, place = (_version_text(one, "one"), _version_text(other, "other")), c_size_t()
    code = CALLS["compare"](texts[0], len(texts[0]), texts[1], len(texts[1]), byref(place))
    if code >= 0:
        return int(code) - 1
    return fail_version(code, str(other if place.value else one), place.value)


ReleaseType = Literal["major", "minor", "patch", "premajor", "preminor", "prepatch", "prerelease", "release"]

_RELEASE_TYPES = get_args(ReleaseType)
_BASES = {0: 0, 1: 1, None: 2}


def increment(version: V, release_type: ReleaseType, *, identifier: str = "", base: Optional[int] = 0) -> V:
    """The next major, minor, patch or pre-release version, without a build. A new pre-release begins with the identifier; then comes
    `base`: 0, 1, or None for no number.

    After a pre-release, the next release may be its own. "prerelease" raises the last number of a pre-release, if the pre-release begins
    with the identifier and goes on with a number, or if you give no identifier.

    >>> increment("1.2.3", "prerelease", identifier="beta")
    '1.2.4-beta.0'
    >>> increment("1.2.3-rc.1", "patch")
    '1.2.3'
    """
    source, identifiers = _version_text(version, "version"), encoded(identifier, "identifier", IncrementError)
    if not isinstance(release_type, str):
        wrong_type(release_type, "release_type", "str")
    if release_type not in _RELEASE_TYPES:
        raise ValueError(f"release_type must be one of {', '.join(_RELEASE_TYPES)}, not {release_type!r}")
    if base is not None and (isinstance(base, bool) or not isinstance(base, int)):
        wrong_type(base, "base", "int or None")
    if base not in _BASES:
        raise ValueError(f"base must be 0, 1 or None, not {base!r}")
    code, written = read(
        "increment", _RELEASE_TYPES.index(release_type), source, len(source), identifiers, len(identifiers), _BASES[base]
    )
    if code == NO_INCREMENT:
        raise IncrementError(written, str(version))
    if code != YES:
        fail_version(code, str(version))
    return type(version)(written)


def coerce(text: str, *, rtl: bool = False, pre_releases: bool = False) -> Optional[str]:
    """The first version in a string: one to three numbers with a dot between neighbours. With `rtl`, the one that ends last. With
    `pre_releases` it keeps the pre-release and the build that come right behind its numbers.

    >>> coerce("v3.4 replaces 3.3.1"), coerce("v3.4 replaces 3.3.1", rtl=True)
    ('3.4.0', '3.3.1')
    >>> coerce("release-1.2-rc.1"), coerce("release-1.2-rc.1", pre_releases=True)
    ('1.2.0', '1.2.0-rc.1')
    >>> coerce("latest") is None
    True
    """
    if not isinstance(rtl, bool):
        wrong_type(rtl, "rtl", "bool")
    source = encoded(text, "text", InvalidVersion)
    code, written = read("coerce", int(rtl), source, len(source), pre_number(pre_releases))
    if code >= 0:
        return written if code == YES else None
    return fail_version(code, text)


def difference(one: AnyVersion, other: AnyVersion) -> Optional[ReleaseType]:
    """What changed between two versions, whichever is the higher one; None if they have the same precedence.

    >>> difference("1.2.3", "1.3.0-rc.1")
    'preminor'
    """
    texts, place = (_version_text(one, "one"), _version_text(other, "other")), c_size_t()
    code = CALLS["difference"](texts[0], len(texts[0]), texts[1], len(texts[1]), byref(place))
    if code >= 0:
        return _RELEASE_TYPES[code] if code < len(_RELEASE_TYPES) else None
    return fail_version(code, str(other if place.value else one), place.value)


def _two(one: AnyRange, other: AnyRange, grammar: Optional[Grammar]) -> Tuple[Tuple[bytes, str], Tuple[bytes, str], int]:
    """Two ranges, and the number of their grammar."""
    if grammar is None:
        for range in (one, other):
            if isinstance(range, Range):
                grammar = range.grammar
    first, first_text, number = range_text(one, "one", grammar)
    second, second_text, _ = range_text(other, "other", grammar)
    return (first, first_text), (second, second_text), number


def _fail_two(code: int, ranges: Tuple[Tuple[bytes, str], ...], number: int, place: int) -> NoReturn:
    _, text = ranges[place if code == INVALID_RANGE else 0]
    fail_range(code, text, number, place if code == INVALID_RANGE else None)


def intersects(one: AnyRange, other: AnyRange, *, grammar: Optional[Grammar] = None) -> bool:
    """Whether the bounds of two ranges overlap; `common` says whether both match a version. Two tags overlap if they are the same.

    >>> intersects(">1.0.0", "<1.0.1")
    True
    """
    first, second, number = _two(one, other, grammar)
    place = c_size_t()
    code = CALLS["intersects"](number, first[0], len(first[0]), second[0], len(second[0]), byref(place))
    if code >= 0:
        return code == YES
    return _fail_two(code, (first, second), number, place.value)


def counterexample(one: AnyRange, other: AnyRange, *, grammar: Optional[Grammar] = None, pre_releases: bool = False) -> Optional[str]:
    """The lowest version that the first range matches and the other doesn't; None if the other contains the first.

    >>> counterexample(">=1.3", "^1.2")
    '2.0.0'
    """
    first, second, number = _two(one, other, grammar)
    place = c_size_t()
    arguments = (number, first[0], len(first[0]), second[0], len(second[0]), pre_number(pre_releases))
    code, text = read("within", *arguments, after=(byref(place),))
    if code >= 0:
        return text if code == NO else None
    return _fail_two(code, (first, second), number, place.value)


def is_subset(one: AnyRange, other: AnyRange, *, grammar: Optional[Grammar] = None, pre_releases: bool = False) -> bool:
    """Whether the other range matches each version that the first one matches. If not, `counterexample` returns one that it doesn't match.

    >>> is_subset("^1.3", "^1.2")
    True
    """
    return counterexample(one, other, grammar=grammar, pre_releases=pre_releases) is None


def is_equivalent(one: AnyRange, other: AnyRange, *, grammar: Optional[Grammar] = None, pre_releases: bool = False) -> bool:
    """Whether two ranges match the same versions.

    >>> is_equivalent("^1", "1.x || 1.2")
    True
    """
    first, second, number = _two(one, other, grammar)
    place = c_size_t()
    arguments = (number, first[0], len(first[0]), second[0], len(second[0]), pre_number(pre_releases))
    code = CALLS["equivalent"](*arguments, byref(place))
    if code >= 0:
        return code == YES
    return _fail_two(code, (first, second), number, place.value)


def common(*ranges: AnyRange, grammar: Optional[Grammar] = None, pre_releases: bool = False) -> Optional[str]:
    """The lowest version that all ranges match, or None. Without ranges it raises `TypeError`.

    >>> common("^1.2", "~1.4 || ^2")
    '1.4.0'
    >>> common(">1.0.0", "<1.0.1") is None
    True
    """
    parsed = [range_text(range, f"ranges[{index}]", grammar) for index, range in enumerate(ranges)]
    if not parsed:
        raise TypeError("common takes one range or more")
    numbers = {number for _, _, number in parsed}
    if len(numbers) > 1:
        raise ValueError("the ranges have different grammars")
    lines, number, place = _lines(source for source, _, _ in parsed), numbers.pop(), c_size_t()
    arguments = (number, lines, len(lines), pre_number(pre_releases))
    code, text = read("common_all", *arguments, after=(byref(place),))
    if code >= 0:
        return text if code == YES else None
    _, range, _ = parsed[place.value if code == INVALID_RANGE else 0]
    return fail_range(code, range, number, place.value if code == INVALID_RANGE else None)


def min_version(range: AnyRange, *, grammar: Optional[Grammar] = None, pre_releases: bool = False) -> Optional[str]:
    """The lowest version that the range matches, or None.

    >>> min_version(">1.2.3")
    '1.2.4'
    """
    source, text, number = range_text(range, "range", grammar)
    code, written = read("min_version", number, source, len(source), pre_number(pre_releases))
    if code >= 0:
        return written if code == YES else None
    return fail_range(code, text, number)


def canonical(range: AnyRange, *, grammar: Optional[Grammar] = None) -> str:
    """The canonical form of the range, for lockfiles and keys; for a tag, the tag.

    >>> canonical(">=1.2 <2 || 3.x")
    '^1.2.0 || 3'
    """
    source, text, number = range_text(range, "range", grammar)
    code, written = read("normal", number, source, len(source))
    return written if code == YES else fail_range(code, text, number)


class Bound(NamedTuple):
    """Where a range starts or ends."""

    version: str
    inclusive: bool


class Bounds(NamedTuple):
    """The bounds of an alternative of a range; None where it has none."""

    start: Optional[Bound]
    end: Optional[Bound]


def _bound(parts: Optional[Dict[str, Any]]) -> Optional[Bound]:
    return None if parts is None else Bound(parts["version"], parts["inclusive"])


def bounds(range: AnyRange, *, grammar: Optional[Grammar] = None) -> List[Bounds]:
    """The bounds of each alternative of the range, except those that are invalid or end below 0.0.0.

    >>> bounds("^1.2 || >=3")[0]
    Bounds(start=Bound(version='1.2.0', inclusive=True), end=Bound(version='2.0.0', inclusive=False))
    """
    source, text, number = range_text(range, "range", grammar)
    code, written = read("ranges", number, source, len(source))
    if code != YES:
        return fail_range(code, text, number)
    return [Bounds(_bound(parts["start"]), _bound(parts["end"])) for parts in json.loads(written)]


class Comparator(NamedTuple):
    """A comparator of a range as written, such as ">=1.2", or a hyphen range; and its bounds, or None where it has none."""

    text: str
    start: Optional[Bound]
    end: Optional[Bound]


class Alternative(NamedTuple):
    """An alternative of a range, and what it means.

    `start` and `end` are its bounds, or None where it has none. `pre_releases` has the three numbers whose pre-releases match, such as
    "1.2.3", or is "all". `lowest` is the lowest version that matches, or None. `error` says why an invalid alternative is left out; its
    indexes are those of the whole range. `comparators` are those of a valid alternative, in their order.
    """

    text: str
    start: Optional[Bound]
    end: Optional[Bound]
    pre_releases: Union[Tuple[str, ...], Literal["all"]]
    lowest: Optional[str]
    error: Optional[InvalidRange]
    comparators: Tuple[Comparator, ...] = ()


class Explanation(NamedTuple):
    """What a range means: its alternatives, in their order, and its canonical form."""

    alternatives: Tuple[Alternative, ...]
    canonical: str


def _alternative(text: str, parts: Dict[str, Any]) -> Alternative:
    if "error" in parts:
        error = invalid_range(text, parts["error"]["message"], parts["error"])
        return Alternative(parts["text"], None, None, (), None, error)
    pre_releases = parts["pre-releases"]
    numbers = pre_releases if pre_releases == "all" else tuple(pre_releases)
    comparators = tuple(Comparator(it["text"], _bound(it["start"]), _bound(it["end"])) for it in parts["comparators"])
    return Alternative(parts["text"], _bound(parts["start"]), _bound(parts["end"]), numbers, parts["lowest"], None, comparators)


def explain(range: AnyRange, *, grammar: Optional[Grammar] = None, pre_releases: bool = False) -> Explanation:
    """What the range means, alternative by alternative. npm's grammar leaves invalid alternatives out.

    >>> valid, invalid = explain(">=1.2.3-rc || 1..2").alternatives
    >>> valid.start, valid.end, valid.pre_releases, valid.lowest
    (Bound(version='1.2.3-rc', inclusive=True), None, ('1.2.3',), '1.2.3-rc')
    >>> [it.text for it in explain("^1.2 <1.5").alternatives[0].comparators]
    ['^1.2', '<1.5']
    >>> invalid.text, str(invalid.error)
    ('1..2', "'>=1.2.3-rc || 1..2': Unexpected character. (at index 16)")
    """
    source, text, number = range_text(range, "range", grammar)
    code, written = read("explain", number, source, len(source), pre_number(pre_releases))
    if code != YES:
        return fail_range(code, text, number)
    parts = json.loads(written)
    return Explanation(tuple(_alternative(text, alternative) for alternative in parts["alternatives"]), parts["normal"])


def may_be_tag(text: str) -> bool:
    """Whether the string can be a tag, by npm's rules.

    >>> may_be_tag("latest"), may_be_tag("a b")
    (True, False)
    """
    try:
        source = encoded(text, "text", SemverError)
    except SemverError:
        return False
    return CALLS["may_be_tag"](source, len(source)) == YES


PackageKind = Literal["npm", "jsr"]


class Package(NamedTuple):
    """A package with a range."""

    scope: Optional[str]
    name: str
    requirement: str
    canonical: str


class Reference(NamedTuple):
    """A reference to a package of npm or JSR."""

    kind: PackageKind
    package: Package
    path: Optional[str]
    export: Optional[str]


def _package(parts: Dict[str, Any]) -> Package:
    return Package(parts["scope"], parts["name"], parts["requirement"], parts["normal"])


def parse_package(text: str, *, grammar: Grammar = "npm") -> Package:
    """The parts of a package with a range.

    >>> parse_package("@scope/name@^1.2")
    Package(scope='scope', name='name', requirement='^1.2', canonical='^1.2.0')
    """
    return _package(_parts("package", text, grammar_number(grammar)))


def parse_reference(text: str) -> Reference:
    """The parts of a reference, such as `jsr:@scope/name@1/mod.ts`.

    >>> reference = parse_reference("jsr:@scope/name@1/mod.ts")
    >>> reference.kind, reference.path, reference.export
    ('jsr', 'mod.ts', './mod.ts')
    """
    parts = _parts("reference", text)
    return Reference(parts["kind"], _package(parts["package"]), parts["path"], parts["export"])


class NameWithVersion(NamedTuple):
    """A package with one version."""

    scope: Optional[str]
    name: str
    version: str


class VersionReference(NamedTuple):
    """A reference to one version of a package."""

    kind: PackageKind
    package: NameWithVersion
    path: Optional[str]
    export: Optional[str]


class Dependency(NamedTuple):
    """A dependency on a package of npm or JSR."""

    kind: PackageKind
    package: Package
    canonical: str


def _parts(call: str, text: str, *options: int) -> Dict[str, Any]:
    source = encoded(text, "text", InvalidPackage)
    code, written = read(call, *options, source, len(source))
    if code == YES:
        parts: Dict[str, Any] = json.loads(written)
        return parts
    errors = f"{call}_errors" if call in ("package", "reference") else ""
    return fail_package(code, text, written, errors, *options)


def _name_with_version(parts: Dict[str, Any]) -> NameWithVersion:
    return NameWithVersion(parts["scope"], parts["name"], parts["version"])


def parse_name_with_version(text: str) -> NameWithVersion:
    """The parts of a package with one version.

    >>> parse_name_with_version("@scope/name@1.2.3")
    NameWithVersion(scope='scope', name='name', version='1.2.3')
    """
    return _name_with_version(_parts("name_with_version", text))


def parse_version_reference(text: str) -> VersionReference:
    """The parts of a reference to one version of a package.

    >>> parse_version_reference("jsr:@scope/name@1.2.3/mod.ts").export
    './mod.ts'
    """
    parts = _parts("version_reference", text)
    return VersionReference(parts["kind"], _name_with_version(parts["package"]), parts["path"], parts["export"])


def parse_dependency(text: str, *, grammar: Grammar = "npm") -> Dependency:
    """The parts of a dependency, such as `jsr:@scope/name@^1.2` or `npm:name@1`.

    >>> parse_dependency("jsr:@scope/name@1.x").canonical
    'jsr:@scope/name@1'
    """
    parts = _parts("dependency", text, grammar_number(grammar))
    return Dependency(parts["kind"], _package(parts["package"]), parts["normal"])


def export_name(path: str) -> str:
    """The export's name for a module's path in a JSR package.

    >>> export_name("mod.ts")
    './mod.ts'
    """
    source = encoded(path, "path", InvalidPackage)
    code, written = read("export_name", source, len(source))
    return written if code == YES else fail_package(code, path, written)
