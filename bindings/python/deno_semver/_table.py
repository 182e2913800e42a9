"""The C calls, for ctypes: what each returns, and what it takes.

Made by bindings/declarations.py from the exports of crates/semver_c/src/lib.rt."""

from __future__ import annotations

from ctypes import POINTER, Structure, c_char_p, c_int8, c_int32, c_size_t, c_uint32, c_uint64, c_void_p
from typing import Any, Dict, Tuple


class Handle(Structure):
    """A value that the library holds, or none."""

    _fields_ = [("at", c_void_p)]


TEXT = (c_char_p, c_size_t)
ANSWERS = (POINTER(c_int8), c_size_t)
NUMBERS = (POINTER(c_uint64), c_size_t)
PLACES = (POINTER(c_size_t), c_size_t)
SIZE = POINTER(c_size_t)
HANDLE = POINTER(Handle)

TABLE: Dict[str, Tuple[Any, ...]] = {
    "fits": (c_int32, c_uint32, *TEXT, *TEXT, c_uint32, *TEXT, SIZE),
    "above": (c_int32, c_uint32, *TEXT, *TEXT, c_uint32, *TEXT, SIZE),
    "below": (c_int32, c_uint32, *TEXT, *TEXT, c_uint32, *TEXT, SIZE),
    "increment": (c_int32, c_uint32, *TEXT, *TEXT, c_uint32, *TEXT, SIZE),
    "coerce": (c_int32, c_uint32, *TEXT, c_uint32, *TEXT, SIZE),
    "difference": (c_int32, *TEXT, *TEXT, SIZE),
    "compare": (c_int32, *TEXT, *TEXT, SIZE),
    "intersects": (c_int32, c_uint32, *TEXT, *TEXT, SIZE),
    "within": (c_int32, c_uint32, *TEXT, *TEXT, c_uint32, *TEXT, SIZE, SIZE),
    "equivalent": (c_int32, c_uint32, *TEXT, *TEXT, c_uint32, SIZE),
    "common": (c_int32, c_uint32, *TEXT, *TEXT, c_uint32, *TEXT, SIZE, SIZE),
    "common_all": (c_int32, c_uint32, *TEXT, c_uint32, *TEXT, SIZE, SIZE),
    "min_version": (c_int32, c_uint32, *TEXT, c_uint32, *TEXT, SIZE),
    "normal": (c_int32, c_uint32, *TEXT, *TEXT, SIZE),
    "is_tag": (c_int32, c_uint32, *TEXT, *TEXT, SIZE),
    "version": (c_int32, *TEXT, *TEXT, SIZE),
    "key": (c_int32, *TEXT, *TEXT, SIZE),
    "may_be_tag": (c_int32, *TEXT),
    "filter": (c_int32, c_uint32, *TEXT, *TEXT, c_uint32, *ANSWERS, SIZE),
    "best": (c_int32, c_uint32, *TEXT, *TEXT, c_uint32, SIZE),
    "lowest": (c_int32, c_uint32, *TEXT, *TEXT, c_uint32, SIZE),
    "simplify": (c_int32, c_uint32, *TEXT, *TEXT, c_uint32, *TEXT, SIZE, SIZE),
    "sort": (c_int32, *TEXT, *PLACES, SIZE, SIZE),
    "package": (c_int32, c_uint32, *TEXT, *TEXT, SIZE),
    "reference": (c_int32, *TEXT, *TEXT, SIZE),
    "package_errors": (c_int32, c_uint32, *TEXT, *TEXT, SIZE),
    "reference_errors": (c_int32, *TEXT, *TEXT, SIZE),
    "version_parts": (c_int32, *TEXT, *TEXT, SIZE),
    "version_numbers": (c_int32, *TEXT, *NUMBERS, SIZE),
    "ranges": (c_int32, c_uint32, *TEXT, *TEXT, SIZE),
    "explain": (c_int32, c_uint32, *TEXT, c_uint32, *TEXT, SIZE),
    "errors": (c_int32, c_uint32, *TEXT, *TEXT, SIZE),
    "version_error": (c_int32, *TEXT, SIZE),
    "name_with_version": (c_int32, *TEXT, *TEXT, SIZE),
    "version_reference": (c_int32, *TEXT, *TEXT, SIZE),
    "dependency": (c_int32, c_uint32, *TEXT, *TEXT, SIZE),
    "export_name": (c_int32, *TEXT, *TEXT, SIZE),
    "req_read": (c_int32, c_uint32, *TEXT, HANDLE, *TEXT, SIZE),
    "package_read": (c_int32, c_uint32, *TEXT, HANDLE, *TEXT, SIZE),
    "version_read": (c_int32, *TEXT, HANDLE, *TEXT, SIZE),
    "req_free": (None, HANDLE),
    "version_free": (None, HANDLE),
    "req_fits": (c_int32, HANDLE, *TEXT, c_uint32),
    "req_matches": (c_int32, HANDLE, HANDLE, c_uint32),
    "req_matches_release": (c_int32, HANDLE, c_uint64, c_uint64, c_uint64),
    "req_is_tag": (c_int32, HANDLE),
    "req_intersects": (c_int32, HANDLE, HANDLE),
    "version_compare": (c_int32, HANDLE, HANDLE),
    "req_normal": (c_int32, HANDLE, *TEXT, SIZE),
    "version_text": (c_int32, HANDLE, *TEXT, SIZE),
    "version_key": (c_int32, HANDLE, *TEXT, SIZE),
    "req_text": (c_int32, HANDLE, *TEXT, SIZE),
    "version_order": (c_int32, HANDLE, HANDLE),
    "req_equal": (c_int32, HANDLE, HANDLE),
    "req_order": (c_int32, HANDLE, HANDLE),
    "list_read": (c_int32, *TEXT, HANDLE, SIZE),
    "list_free": (None, HANDLE),
    "list_filter": (c_int32, HANDLE, HANDLE, c_uint32, *ANSWERS, SIZE),
    "list_best": (c_int32, HANDLE, HANDLE, c_uint32, SIZE),
    "list_lowest": (c_int32, HANDLE, HANDLE, c_uint32, SIZE),
    "list_sort": (c_int32, HANDLE, *PLACES, SIZE),
    "scans_read": (c_int32, HANDLE, c_uint32, HANDLE, SIZE),
    "scans_free": (None, HANDLE),
    "scan": (c_int32, HANDLE, c_size_t, *TEXT, SIZE, *TEXT, SIZE),
    "api": (c_uint32,),
}
