"""Versions and ranges that are parsed once."""

from __future__ import annotations

import re
from ctypes import byref, c_size_t, create_string_buffer
from functools import total_ordering
from threading import Lock
from typing import Any, Callable, List, Literal, NamedTuple, Optional, Tuple, Union

from ._calls import (
    CALLS,
    GRAMMARS,
    TAG,
    YES,
    encoded,
    fail_range,
    fail_version,
    grammar_number,
    hold,
    pre_number,
    read,
    wrong_type,
)
from ._errors import InvalidRange, InvalidVersion, TagError
from ._table import Handle

_HOLDING = Lock()  # threads may share a version, and only one of them may make its handle

Grammar = Literal["npm", "normalized", "strict"]

# A version as the library displays it: its numbers, its pre-release and its build.
_parts = re.compile(r"([0-9]+)\.([0-9]+)\.([0-9]+)(?:-([^+]*))?(?:\+(.*))?").fullmatch

_NUMBER = r"(0|[1-9][0-9]{0,14})"
_IDENTIFIER = r"(?:0|[1-9][0-9]*|[0-9]*[A-Za-z-][A-Za-z0-9-]*)"
# Versions as most are: by the strict grammar of SemVer, without a build, and with numbers of at most 15 digits. The library takes each of
# them, and displays it as it stands, so it isn't asked.
_plain = re.compile(rf"{_NUMBER}\.{_NUMBER}\.{_NUMBER}(?:-{_IDENTIFIER}(?:\.{_IDENTIFIER})*)?").fullmatch


class Held:
    """A handle that has a value, which is freed with it."""

    __slots__ = ("_handle", "_free")

    def __init__(self, handle: Handle, free: Callable[[Any], object]) -> None:
        self._handle, self._free = handle, free

    def __del__(self) -> None:
        handle = getattr(self, "_handle", None)
        if handle is not None and handle.at is not None:
            self._free(byref(handle))

    def lent(self) -> Any:
        """The handle, for one call."""
        if self._handle.at is None:
            raise ValueError("the value was freed")
        return byref(self._handle)


def _displayed(text: str) -> str:
    """The version as the library displays it."""
    source = encoded(text, "text", InvalidVersion)
    code, displayed = read("version", source, len(source))
    if code != YES:
        fail_version(code, text)
    return displayed


@total_ordering
class Version:
    """A version.

    >>> version = Version("v1.2.3-beta.4+build")
    >>> version
    Version('1.2.3-beta.4+build')
    >>> version.major, version.pre, version.build
    (1, ('beta', '4'), ('build',))
    >>> Version("1.10.0") > Version("1.9.0")
    True

    Versions that differ only in the build aren't equal, and are ordered by the build. `precedes` ignores builds, as SemVer does.
    """

    __slots__ = ("_text", "_numbers", "_held", "__weakref__")

    _text: str
    _numbers: Tuple[int, ...]
    _held: Optional[Held]

    def __new__(cls, text: str) -> Version:
        self = object.__new__(cls)
        parts = _plain(text) if type(text) is str else None
        if parts is None:
            text = _displayed(text)
            parts = _parts(text)
            assert parts is not None
        self._text = text
        self._numbers = tuple(map(int, parts.group(1, 2, 3)))
        self._held = None
        return self

    def _lent(self) -> Any:
        """The version as a handle, for one call. It is held from the first time on."""
        if self._held is None:
            self._hold()
        assert self._held is not None
        return self._held.lent()

    def _hold(self) -> None:
        source = self._text.encode()
        with _HOLDING:
            if self._held is None:
                code, _, handle = hold("version_read", source, len(source))
                if code != YES:
                    raise MemoryError
                self._held = Held(handle, CALLS["version_free"])

    def _is_release(self) -> bool:
        """Whether the version has neither a pre-release nor a build."""
        return "-" not in self._text and "+" not in self._text

    def _part(self, number: int) -> str:
        parts = _parts(self._text)
        assert parts is not None
        return parts[number] or ""

    @property
    def major(self) -> int:
        return self._numbers[0]

    @property
    def minor(self) -> int:
        return self._numbers[1]

    @property
    def patch(self) -> int:
        return self._numbers[2]

    @property
    def pre(self) -> Tuple[str, ...]:
        """The identifiers of the pre-release."""
        pre = self._part(4)
        return tuple(pre.split(".")) if pre else ()

    @property
    def build(self) -> Tuple[str, ...]:
        """The identifiers of the build."""
        build = self._part(5)
        return tuple(build.split(".")) if build else ()

    @property
    def sort_key(self) -> str:
        """The sort key, for a column of a database: printable ASCII without whitespace. Keys compare as `precedes` compares versions,
        whether as strings or as bytes, and no key begins another.

        >>> Version("1.10.0-beta.2").sort_key
        'A1B10A0-$beta!#A22!!'
        """
        code, key = read("version_key", self._lent())
        if code != YES:
            raise MemoryError
        return key

    def __str__(self) -> str:
        return self._text

    def __repr__(self) -> str:
        return f"Version({self._text!r})"

    def __eq__(self, other: object) -> bool:
        if not isinstance(other, Version):
            return NotImplemented
        return self._text == other._text

    def __hash__(self) -> int:
        return hash(self._text)

    def __lt__(self, other: object) -> bool:
        if not isinstance(other, Version):
            return NotImplemented
        one, two = self._numbers, other._numbers
        if one != two:
            return one < two
        return self._text != other._text and CALLS["version_order"](self._lent(), other._lent()) == 0

    def __reduce__(self) -> Tuple[Any, ...]:
        return Version, (self._text,)

    def precedes(self, other: Version) -> bool:
        """Whether this version comes before the other by precedence, which ignores builds.

        >>> Version("1.0.0-rc.1").precedes(Version("1.0.0"))
        True
        >>> Version("1.0.0+a").precedes(Version("1.0.0+b"))
        False
        """
        if not isinstance(other, Version):
            wrong_type(other, "other", "Version")
        one, two = self._numbers, other._numbers
        if one != two:
            return one < two
        return self._text != other._text and CALLS["version_compare"](self._lent(), other._lent()) == 0


class Scan(NamedTuple):
    """The sort keys at or above `low` and below `high`: of pre-releases if `is_pre` is true, else of releases."""

    is_pre: bool
    low: str
    high: str


def _scan(scans: Held, index: int) -> Scan:
    size = 128
    while True:
        low, low_len = create_string_buffer(size), c_size_t()
        high, high_len = create_string_buffer(size), c_size_t()
        code = CALLS["scan"](scans.lent(), index, low, size, byref(low_len), high, size, byref(high_len))
        if max(low_len.value, high_len.value) <= size:
            return Scan(code == YES, low.raw[: low_len.value].decode(), high.raw[: high_len.value].decode())
        size = max(low_len.value, high_len.value)


class Range:
    """A version range, or a tag.

    >>> range = Range(">=1.2 <2 || 3.x")
    >>> range
    Range('>=1.2 <2 || 3.x')
    >>> range.canonical
    '^1.2.0 || 3'
    >>> "1.5.0" in range, "2.0.0" in range
    (True, False)

    Ranges are equal if they have the same bounds in the same order, or are the same tag, whatever strings they were parsed from. `grammar`
    is "npm", "normalized" (comparators separated by whitespace, alternatives by `||`) or "strict" (the grammar of package specifiers).
    """

    __slots__ = ("_held", "_text", "_grammar", "_canonical", "_is_tag", "__weakref__")

    _held: Held
    _text: str
    _grammar: Grammar
    _canonical: str
    _is_tag: bool

    def __new__(cls, text: str, grammar: Grammar = "npm") -> Range:
        source, number = encoded(text, "text", InvalidRange), grammar_number(grammar)
        code, written, handle = hold("req_read", number, source, len(source))
        if code != YES:
            fail_range(code, text, number)
        self = super().__new__(cls)
        self._held = Held(handle, CALLS["req_free"])
        self._text, self._grammar = text, grammar
        self._canonical = written or read("normal", number, source, len(source))[1]
        self._is_tag = CALLS["req_is_tag"](self._held.lent()) == YES
        return self

    @property
    def text(self) -> str:
        """The string that the range was parsed from."""
        return self._text

    @property
    def grammar(self) -> Grammar:
        return self._grammar

    @property
    def canonical(self) -> str:
        """The canonical form, for lockfiles and keys; for a tag, the tag."""
        return self._canonical

    @property
    def is_tag(self) -> bool:
        """Whether this is a tag, a name that a registry gives a version."""
        return self._is_tag

    def __str__(self) -> str:
        return self.text

    def __repr__(self) -> str:
        grammar = "" if self.grammar == "npm" else f", {self.grammar!r}"
        return f"Range({self.text!r}{grammar})"

    def __eq__(self, other: object) -> bool:
        if not isinstance(other, Range):
            return NotImplemented
        return CALLS["req_equal"](self._held.lent(), other._held.lent()) == YES

    def __hash__(self) -> int:
        return hash(self.canonical)

    def __reduce__(self) -> Tuple[Any, ...]:
        return Range, (self.text, self.grammar)

    def matches(self, version: Union[str, Version], *, pre_releases: bool = False) -> bool:
        """Whether the version matches. With `pre_releases` every pre-release between the bounds matches.

        >>> Range("^1.2").matches("1.3.0-rc.1")
        False
        >>> Range("^1.2").matches("1.3.0-rc.1", pre_releases=True)
        True
        """
        flag = pre_number(pre_releases)
        if isinstance(version, Version):
            if version._is_release():
                return self._answer(CALLS["req_matches_release"](self._held.lent(), *version._numbers), str(version))
            return self._answer(CALLS["req_matches"](self._held.lent(), version._lent(), flag), str(version))
        source = encoded(version, "version", InvalidVersion)
        return self._answer(CALLS["req_fits"](self._held.lent(), source, len(source), flag), version)

    def _answer(self, code: int, version: str) -> bool:
        if code >= 0:
            return code == YES
        if code == TAG:
            raise TagError("The range is a tag.", self.text)
        fail_version(code, version)

    def __contains__(self, version: Union[str, Version]) -> bool:
        return self.matches(version)

    def intersects(self, other: Range) -> bool:
        """Whether the bounds of both ranges overlap; two tags overlap if they are the same.

        >>> Range("^1.2").intersects(Range(">=1.5 <3"))
        True
        """
        if not isinstance(other, Range):
            wrong_type(other, "other", "Range")
        return CALLS["req_intersects"](self._held.lent(), other._held.lent()) == YES

    def scans(self, *, pre_releases: bool = False) -> List[Scan]:
        """What the range matches, as scans of an index on `Version.sort_key`.

        A release matches exactly if its key is in a scan of releases, and a pre-release exactly if its key is in a scan of pre-releases.
        Scans of releases come first, then scans of pre-releases, each in ascending order, with a gap between one scan and the next.

        >>> Range("^1.2").scans()
        [Scan(is_pre=False, low='A1A2A0~', high='A2A0A0~')]
        """
        handle, count = Handle(), c_size_t()
        code = CALLS["scans_read"](self._held.lent(), pre_number(pre_releases), byref(handle), byref(count))
        if code == TAG:
            raise TagError("The range is a tag.", self.text)
        if code != YES:
            raise MemoryError
        scans = Held(handle, CALLS["scans_free"])
        return [_scan(scans, index) for index in range(count.value)]


def range_text(value: Any, name: str, grammar: Optional[Grammar]) -> Tuple[bytes, str, int]:
    """The bytes of a range, its text, and the number of its grammar, which is that of a `Range`, or npm's by default."""
    if isinstance(value, Range):
        if grammar is not None and grammar != value.grammar:
            raise ValueError(f"grammar is {grammar!r}, and that of {name} {value.grammar!r}")
        return value.text.encode(), value.text, GRAMMARS[value.grammar]
    number = 0 if grammar is None else grammar_number(grammar)
    return encoded(value, name, InvalidRange), value, number
