"""What a type checker knows of the package: mypy --strict passes this file, which fails where an ignored mistake isn't one."""

from typing import List, Optional

import deno_semver as semver
from deno_semver import Grammar, PackageKind, Range, ReleaseType, Version, VersionList

texts: List[str] = semver.filter("^1", ["1.0.0"])
values: List[Version] = semver.sort([Version("1.0.0")])
best: Optional[Version] = semver.best(Range("^1"), values)
text: str = semver.increment("1.0.0", "patch")
value: Version = semver.increment(Version("1.0.0"), "prerelease", identifier="rc", base=None)
kind: Optional[ReleaseType] = semver.difference(text, value)

held: VersionList[str] = VersionList(texts)
found: Optional[str] = held.best("^1", pre_releases=True)
first: List[Version] = VersionList(values).filter(Range("1"))

grammar: Grammar = "strict"
package: PackageKind = semver.parse_dependency("npm:a@1", grammar=grammar).kind
lowest: Optional[str] = semver.explain("^1 || x y").alternatives[0].lowest

semver.matches("1", "1.0.0", grammar="loose")  # type: ignore[arg-type]
semver.increment("1.0.0", "pre")  # type: ignore[arg-type]
semver.matches("1", 1)  # type: ignore[arg-type]
VersionList(texts).filter("1").append(1)  # type: ignore[arg-type]
