"""Versions that are parsed once, for many ranges."""

from __future__ import annotations

from ctypes import byref, c_int8, c_size_t
from typing import Any, Generic, Iterable, Iterator, List, Optional, Sequence, Tuple

from ._calls import CALLS, TAG, YES, fail_version, pre_number
from ._errors import TagError
from ._functions import AnyRange, V, version_lines
from ._table import Handle
from ._values import Held, Range


class VersionList(Generic[V]):
    """Versions that are parsed once, for many ranges. It can't be changed.

    >>> versions = VersionList(["1.2.0", "2.0.0", "1.10.0"])
    >>> versions.filter("^1.2"), versions.best("^1"), versions.lowest("*")
    (['1.2.0', '1.10.0'], '1.10.0', '1.2.0')
    >>> versions.sort()
    ['1.2.0', '1.10.0', '2.0.0']
    >>> len(versions), list(versions)[1]
    (3, '2.0.0')

    A string that isn't a version raises `InvalidVersion` with its index. With `skip_invalid` it stays in the list and matches nothing.
    """

    __slots__ = ("_held", "_versions", "__weakref__")

    _held: Held
    _versions: Tuple[V, ...]

    def __new__(cls, versions: Iterable[V], *, skip_invalid: bool = False) -> VersionList[V]:
        listed, lines = version_lines(versions)
        handle, count = Handle(), c_size_t()
        if CALLS["list_read"](lines, len(lines), byref(handle), byref(count)) != YES:
            raise MemoryError
        self = super().__new__(cls)
        self._held = Held(handle, CALLS["list_free"])
        self._versions = tuple(listed)
        if not skip_invalid:
            for index, answer in enumerate(self._answers(Range("*"), True)):
                if answer < 0:
                    fail_version(answer, str(listed[index]), index)
        return self

    def _answers(self, range: Range, pre_releases: bool) -> Sequence[int]:
        """The code of each version: whether it matches, or that it isn't a version."""
        count, needed = len(self._versions), c_size_t()
        answers = (c_int8 * max(count, 1))()
        code = CALLS["list_filter"](self._held.lent(), range._held.lent(), pre_number(pre_releases), answers, count, byref(needed))
        _expect_answer(code, range)
        return answers[:count]

    def filter(self, range: AnyRange, *, pre_releases: bool = False) -> List[V]:
        """The versions that match, in their order."""
        answers = self._answers(_parsed(range), pre_releases)
        return [version for version, answer in zip(self._versions, answers) if answer == YES]

    def _find(self, call: str, range: Range, pre_releases: bool) -> Optional[V]:
        place = c_size_t()
        code = CALLS[call](self._held.lent(), range._held.lent(), pre_number(pre_releases), byref(place))
        _expect_answer(code, range)
        return self._versions[place.value] if code == YES else None

    def best(self, range: AnyRange, *, pre_releases: bool = False) -> Optional[V]:
        """The highest version that matches, the first of equal ones, or None."""
        return self._find("list_best", _parsed(range), pre_releases)

    def lowest(self, range: AnyRange, *, pre_releases: bool = False) -> Optional[V]:
        """The lowest version that matches, the first of equal ones, or None."""
        return self._find("list_lowest", _parsed(range), pre_releases)

    def sort(self) -> List[V]:
        """The versions by precedence, the lowest first, without the invalid ones. Those that differ only in the build keep their order."""
        count, needed = len(self._versions), c_size_t()
        places = (c_size_t * max(count, 1))()
        if CALLS["list_sort"](self._held.lent(), places, count, byref(needed)) != YES:
            raise MemoryError
        return [self._versions[place] for place in places[: needed.value]]

    def __len__(self) -> int:
        return len(self._versions)

    def __iter__(self) -> Iterator[V]:
        return iter(self._versions)

    def __repr__(self) -> str:
        return f"VersionList({list(self._versions)!r})"

    def __copy__(self) -> VersionList[V]:
        return self

    def __reduce__(self) -> Tuple[Any, ...]:
        return _listed, (self._versions,)


def _listed(versions: Tuple[V, ...]) -> VersionList[V]:
    """The list of these versions, for pickle."""
    return VersionList(versions, skip_invalid=True)


def _parsed(range: AnyRange) -> Range:
    return range if isinstance(range, Range) else Range(range)


def _expect_answer(code: int, range: Range) -> None:
    """Raises the error that a negative code means."""
    if code == TAG:
        raise TagError("The range is a tag.", range.text)
    if code < 0:
        raise MemoryError
