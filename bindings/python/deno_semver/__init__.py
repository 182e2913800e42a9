# SPDX-License-Identifier: MIT
"""Versions and version ranges of npm and JSR packages, as Deno parses, matches and compares them.

>>> matches(">=1.2 <2 || 3", "1.3.0")
True
>>> best("^1.2", ["1.2.0", "1.10.0", "2.0.0"])
'1.10.0'
>>> counterexample("^1", "^1.2")
'1.0.0'

A range is a string or a `Range`, and a version a string or a `Version`. An invalid string raises `InvalidRange` or `InvalidVersion`; a
range that is a tag, `TagError`; an argument of another type, `TypeError`; and running out of memory, `MemoryError`.

`grammar` is the grammar of ranges: "npm" by default; "normalized", comparators separated by whitespace, alternatives by `||`; or "strict",
the grammar of package specifiers. With `pre_releases` every pre-release between the bounds matches. Without it, by npm's rule, a
pre-release between the bounds matches only if a bound is a pre-release of the same three numbers.
"""

from ._errors import IncrementError, InvalidPackage, InvalidRange, InvalidVersion, SemverError, TagError
from ._functions import (
    Alternative,
    Comparator,
    Bound,
    Bounds,
    Dependency,
    Explanation,
    NameWithVersion,
    Package,
    PackageKind,
    Reference,
    ReleaseType,
    VersionReference,
    best,
    bounds,
    canonical,
    coerce,
    common,
    compare,
    counterexample,
    difference,
    explain,
    export_name,
    filter,
    increment,
    intersects,
    is_above,
    is_below,
    is_equivalent,
    is_subset,
    lowest,
    matches,
    may_be_tag,
    min_version,
    parse_dependency,
    parse_name_with_version,
    parse_package,
    parse_reference,
    parse_version_reference,
    simplify,
    sort,
)
from ._lists import VersionList
from ._values import Grammar, Range, Scan, Version

__version__ = "0.1.0"

__all__ = [
    "Alternative",
    "Comparator",
    "Bound",
    "Bounds",
    "Dependency",
    "Explanation",
    "Grammar",
    "IncrementError",
    "InvalidPackage",
    "InvalidRange",
    "InvalidVersion",
    "NameWithVersion",
    "Package",
    "PackageKind",
    "Range",
    "Reference",
    "ReleaseType",
    "Scan",
    "SemverError",
    "TagError",
    "Version",
    "VersionList",
    "VersionReference",
    "best",
    "bounds",
    "canonical",
    "coerce",
    "common",
    "compare",
    "counterexample",
    "difference",
    "explain",
    "export_name",
    "filter",
    "increment",
    "intersects",
    "is_above",
    "is_below",
    "is_equivalent",
    "is_subset",
    "lowest",
    "matches",
    "may_be_tag",
    "min_version",
    "parse_dependency",
    "parse_name_with_version",
    "parse_package",
    "parse_reference",
    "parse_version_reference",
    "simplify",
    "sort",
]
