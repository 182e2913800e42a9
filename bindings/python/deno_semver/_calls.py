"""The C calls, over ctypes."""

from __future__ import annotations

import ctypes
import json
import os
from ctypes import byref, c_size_t
from typing import Any, Callable, Dict, NoReturn, Optional, Tuple, Type

from ._errors import InvalidPackage, InvalidRange, InvalidVersion, SemverError, TagError
from ._table import HANDLE, TABLE, Handle

NO, YES = 0, 1
TAG, INVALID_RANGE, INVALID_VERSION, NOT_UTF8, NO_GRAMMAR, NO_MEMORY = -1, -2, -3, -4, -5, -6
NO_INCREMENT = -8

GRAMMARS = {"npm": 0, "normalized": 1, "strict": 2}

API = 1


def _path() -> str:
    """The shared library: that of DENO_SEMVER_LIBRARY, or the one beside this file."""
    given = os.environ.get("DENO_SEMVER_LIBRARY")
    return given or os.path.join(os.path.dirname(__file__), "libdeno_semver.so.0")


def _load() -> Dict[str, Callable[..., int]]:
    # The calls of texts let other threads run. Those of handles are short, and to give up the interpreter's lock would take longer. They
    # need no lock: threads may ask one handle at once.
    of_texts, of_handles = ctypes.CDLL(_path()), ctypes.PyDLL(_path())
    calls: Dict[str, Callable[..., int]] = {}
    for name, (result, *arguments) in TABLE.items():
        call = getattr(of_handles if HANDLE in arguments else of_texts, f"semver_{name}")
        call.argtypes, call.restype = arguments, result
        calls[name] = call
    return calls


def _check_api() -> None:
    """Stops if the library has another API than this package."""
    api = ctypes.CDLL(_path()).semver_api()
    if api != API:
        raise ImportError(f"{_path()} has the API {api}, and this package needs {API}")


_check_api()
CALLS = _load()


def wrong_type(value: Any, name: str, wanted: str) -> NoReturn:
    raise TypeError(f"{name} must be {wanted}, not {type(value).__name__}")


def encoded(text: Any, name: str, error: Type[SemverError], index: Optional[int] = None) -> bytes:
    """The bytes of a text."""
    if not isinstance(text, str):
        wrong_type(text, name if index is None else f"{name}[{index}]", "str")
    try:
        return text.encode()
    except UnicodeEncodeError as invalid:
        raise error("The string has a lone surrogate.", text, index, invalid.start, invalid.end) from None


def grammar_number(grammar: Any) -> int:
    if not isinstance(grammar, str):
        wrong_type(grammar, "grammar", "str")
    try:
        return GRAMMARS[grammar]
    except KeyError:
        raise ValueError(f"grammar must be 'npm', 'normalized' or 'strict', not {grammar!r}") from None


def pre_number(pre_releases: Any) -> int:
    if not isinstance(pre_releases, bool):
        wrong_type(pre_releases, "pre_releases", "bool")
    return int(pre_releases)


# The buffer that most texts fit in.
SHORT = 128
Short = ctypes.c_char * SHORT


def read(name: str, *arguments: Any, after: Tuple[Any, ...] = ()) -> Tuple[int, str]:
    """The code of a call that writes a text, and the text."""
    call, needed, size, out = CALLS[name], c_size_t(), SHORT, Short()
    while True:
        code = call(*arguments, out, size, byref(needed), *after)
        if needed.value <= size:
            return code, out.raw[: needed.value].decode()
        size = needed.value
        out = ctypes.create_string_buffer(size)


def hold(name: str, *arguments: Any) -> Tuple[int, str, Handle]:
    """Puts a value into a handle by a call. Returns the call's code, a text and the handle. The text is how the value is displayed, or
    empty if that is longer than SHORT; if the call fails, it is an error message.

    A call isn't repeated once the handle has a value."""
    handle, needed, size, out = Handle(), c_size_t(), SHORT, Short()
    while True:
        code = CALLS[name](*arguments, byref(handle), out, size, byref(needed))
        if needed.value <= size:
            return code, out.raw[: needed.value].decode(), handle
        if code == YES:
            return code, "", handle
        size = needed.value
        out = ctypes.create_string_buffer(size)


def _written(name: str, *arguments: Any) -> str:
    """What a call writes about an invalid text."""
    code, written = read(name, *arguments)
    if code == NO_MEMORY:
        raise MemoryError
    return written


def _fail_unless_invalid(code: int, text: str, index: Optional[int] = None) -> None:
    """Raises the error that the code means, unless that is about an invalid text."""
    if code == NO_MEMORY:
        raise MemoryError
    if code == TAG:
        raise TagError("The range is a tag.", text, index)


def _place(text: str, parts: Dict[str, Any]) -> Tuple[int, int, Tuple[str, ...]]:
    """Where an error begins and ends, as indexes of characters, and what could stand at its start. `parts` has the indexes of bytes."""
    source = text.encode()
    start, end = (len(source[: parts[name]].decode()) for name in ("start", "end"))
    return start, end, tuple(parts["expected"])


def invalid_range(text: str, message: str, parts: Dict[str, Any], index: Optional[int] = None) -> InvalidRange:
    """The error of a range with these parts."""
    return InvalidRange(message, text, index, *_place(text, parts))


def fail_range(code: int, text: str, grammar: int, index: Optional[int] = None) -> NoReturn:
    """Raises the error that a negative code means for a range."""
    _fail_unless_invalid(code, text, index)
    source = text.encode()
    message = _written("normal", grammar, source, len(source))
    errors = json.loads(_written("errors", grammar, source, len(source)))
    raise invalid_range(text, message, errors[0], index)


def fail_version(code: int, text: str, index: Optional[int] = None) -> NoReturn:
    """Raises the error that a negative code means for a version."""
    _fail_unless_invalid(code, text, index)
    source, place = text.encode(), c_size_t()
    message = _written("version", source, len(source))
    _fail_unless_invalid(CALLS["version_error"](source, len(source), byref(place)), text)
    raise InvalidVersion(message, text, index, len(source[: place.value].decode()), len(text))


def fail_package(code: int, text: str, message: str, errors: str = "", *options: int) -> NoReturn:
    """Raises the error that a negative code means for a package; the call `errors` finds where it is invalid."""
    _fail_unless_invalid(code, text)
    source = text.encode()
    found = json.loads(_written(errors, *options, source, len(source))) if errors else []
    if not found:
        raise InvalidPackage(message, text)
    raise InvalidPackage(message, text, None, *_place(text, found[0]))
