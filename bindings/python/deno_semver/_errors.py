"""What the functions raise."""

from __future__ import annotations

from typing import Any, Optional, Tuple


class SemverError(ValueError):
    """A string is invalid.

    `text` is the string, and `message` says what is wrong with it. `index` is its index in a list; if a call takes several ranges or
    versions, it says which of them is invalid, counted from 0.

    `start` is the index of the character at which the string goes wrong, and `end` the index at which the invalid part ends. That part is
    an alternative of the range, or of the range in a package, or else the whole string. `start` and `end` are None if they aren't known.
    `expected` is what could be at `start`: "digit", "letter", "whitespace", "end", "name", or a string such as "."; it is empty if that
    isn't known.

    >>> from deno_semver import Range
    >>> try:
    ...     Range("^1.2.3.4")
    ... except InvalidRange as error:
    ...     print(error)
    ...     print(error.start, error.text[error.start : error.end], error.expected[:4])
    '^1.2.3.4': Unexpected character. (at index 6)
    6 .4 ('digit', 'x', 'v', 'letter')
    """

    def __init__(
        self,
        message: str,
        text: str = "",
        index: Optional[int] = None,
        start: Optional[int] = None,
        end: Optional[int] = None,
        expected: Tuple[str, ...] = (),
    ) -> None:
        super().__init__(message, text, index, start, end, expected)
        self.message = message
        self.text = text
        self.index = index
        self.start = start
        self.end = end
        self.expected = expected

    def __str__(self) -> str:
        item = "" if self.index is None else f" (item {self.index})"
        place = "" if self.start is None else f" (at index {self.start})"
        return f"{self.text!r}{item}: {self.message}{place}"

    def __reduce__(self) -> Tuple[Any, ...]:
        return type(self), (self.message, self.text, self.index, self.start, self.end, self.expected)


class InvalidRange(SemverError):
    """A string isn't a version range."""


class InvalidVersion(SemverError):
    """A string isn't a version."""


class IncrementError(SemverError):
    """There is no next version: a number is too large, you asked for the release of a release, or the pre-release would be empty, invalid
    or the same as before."""


class InvalidPackage(SemverError):
    """A string isn't a package with a range, or a reference to one."""


class TagError(SemverError):
    """A range is a tag, such as `latest`: only a registry knows which version that is."""
