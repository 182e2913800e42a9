"""Asks each question of a table by every function that it concerns. python3 questions.py TABLE

DENO_SEMVER_LIBRARY is the shared library over the heap of bindings/heap.c. The status is 1 if an answer differs, or a block of the library
is alive at the end."""

import copy
import ctypes
import gc
import json
import os
import pickle
import sys

import deno_semver as semver

PRE = {"restricted": False, "admitted": True}
BASES = {"zero": 0, "one": 1, "nothing": None}
# How many options, a grammar and which pre-releases match, stand before the texts of a call.
OPTIONS = {
    **dict.fromkeys(("fits", "above", "below", "filter", "best", "lowest", "simplify", "within", "equivalent", "common", "common_all", "min_version", "explain", "scans"), 2),
    **dict.fromkeys(("intersects", "normal", "package", "equal", "is_tag", "ranges", "dependency", "errors", "package_errors"), 1),
    **dict.fromkeys(("sort", "increment", "coerce", "difference", "compare", "order", "version", "version_error", "may_be_tag", "reference", "reference_errors"), 0),
    **dict.fromkeys(("version_parts", "name_with_version", "version_reference", "export_name", "key"), 0),
}


def yes_or_no(answer):
    return ["yes" if answer else "no"]


def order(sign):
    return [("same", "after", "before")[sign]]


def found(version, code="yes", none="no"):
    return [none] if version is None else [code, version]


def package_json(package):
    return {"name": package.name, "normal": package.canonical, "requirement": package.requirement, "scope": package.scope}


def reference_json(reference):
    package = package_json(reference.package)
    return {"export": reference.export, "kind": reference.kind, "package": package, "path": reference.path}


def bound_json(bound):
    return None if bound is None else {"inclusive": bound.inclusive, "version": bound.version}


def byte_index(text, index):
    """The index in the bytes of a text, where the table has its indexes."""
    return len(text[:index].encode())


def error_json(error):
    start, end = byte_index(error.text, error.start), byte_index(error.text, error.end)
    return {"end": end, "expected": list(error.expected), "message": error.message, "start": start}


def alternative_json(alternative):
    if alternative.error:
        return {"error": error_json(alternative.error), "text": alternative.text}
    comparators = [{**bounds_json(it), "text": it.text} for it in alternative.comparators]
    parts = {"lowest": alternative.lowest, "pre-releases": alternative.pre_releases, "text": alternative.text}
    return {**bounds_json(alternative), **parts, "comparators": comparators}


def bounds_json(it):
    return {"start": bound_json(it.start), "end": bound_json(it.end)}


def explanation_json(explanation):
    return {"alternatives": [alternative_json(it) for it in explanation.alternatives], "normal": explanation.canonical}


def range_errors(text, options):
    """The errors of the alternatives that are left out, or the one that is raised; None for a tag, whose error no function returns."""
    try:
        return [it.error for it in semver.explain(text, **options).alternatives if it.error]
    except semver.InvalidRange as error:
        return [error]
    except semver.TagError:
        return None


def package_errors(call, text, **options):
    """The error that is raised, if it has a place; None for a valid text, of which no function returns the alternatives that are left out."""
    try:
        call(text, **options)
    except semver.InvalidPackage as error:
        return [] if error.start is None else [error]
    return None


def version_error(text):
    """The index of the error that is raised; of a version, its length."""
    try:
        semver.Version(text)
    except semver.InvalidVersion as error:
        return byte_index(text, error.start)
    return len(text.encode())


def version_json(version):
    numbers = {name: str(getattr(version, name)) for name in ("major", "minor", "patch")}
    return {**numbers, "pre": list(version.pre), "build": list(version.build)}


def version_reference_json(reference):
    return {"export": reference.export, "kind": reference.kind, "package": reference.package._asdict(), "path": reference.path}


def dependency_json(dependency):
    return {"kind": dependency.kind, "normal": dependency.canonical, "package": package_json(dependency.package)}


def parts(value):
    return ["yes", json.dumps(value, ensure_ascii=False, separators=(",", ":"), sort_keys=True)]


def listed(versions):
    return versions.replace("\r\n", "\n").removesuffix("\n").split("\n") if versions else []


def each_answer(lines, matching):
    """The answer for each line, where these match, and some may be invalid."""
    answers, rest = [], list(matching)
    for line in lines:
        try:
            semver.Version(line)
        except semver.InvalidVersion:
            answers.append("invalid version")
            continue
        is_next = bool(rest) and rest[0] == line
        answers.append("yes" if is_next else "no")
        rest = rest[1:] if is_next else rest
    return ["yes", *answers]


def place(lines, version):
    return ["no"] if version is None else ["yes", str(next(n for n, line in enumerate(lines) if line is version))]


def places(lines, ordered):
    left = list(enumerate(lines))
    answer = ["yes"]
    for version in ordered:
        index = next(n for n, (_, line) in enumerate(left) if line is version)
        answer.append(str(left.pop(index)[0]))
    return answer


def unique(lines):
    """The same texts, no two of which are one object."""
    return ["".join(list(line)) if len(line) > 1 else line for line in lines]


def of_texts(name, texts, options):
    if name == "fits":
        return yes_or_no(semver.matches(*texts, **options))
    if name in ("above", "below"):
        return yes_or_no(getattr(semver, f"is_{name}")(texts[1], texts[0], **options))
    if name == "filter":
        lines = unique(listed(texts[1]))
        return each_answer(lines, semver.filter(texts[0], lines, skip_invalid=True, **options))
    if name in ("best", "lowest"):
        lines = unique(listed(texts[1]))
        return place(lines, getattr(semver, name)(texts[0], lines, **options))
    if name == "simplify":
        return ["yes", semver.simplify(texts[0], listed(texts[1]), **options)]
    if name == "sort":
        lines = unique(listed(texts[0]))
        return places(lines, semver.sort(lines))
    if name == "increment":
        kind, base, version, identifier = texts
        return ["yes", semver.increment(version, kind, identifier=identifier, base=BASES[base])]
    if name == "coerce":
        end, which, text = texts
        version = semver.coerce(text, rtl={"first": False, "last": True}[end], pre_releases=which == "all")
        return ["no"] if version is None else ["yes", version]
    if name == "difference":
        return [semver.difference(*texts) or "none"]
    if name == "compare":
        return order(semver.compare(*texts))
    if name == "intersects":
        return yes_or_no(semver.intersects(*texts, **options))
    if name == "within":
        return found(semver.counterexample(*texts, **options), "no", "yes")
    if name == "equivalent":
        return yes_or_no(semver.is_equivalent(*texts, **options))
    if name in ("common", "common_all"):
        ranges = texts if name == "common" else listed(texts[0])
        return found(semver.common(*ranges, **options)) if ranges else ["no"]
    if name == "min_version":
        return found(semver.min_version(*texts, **options))
    if name == "normal":
        return ["yes", semver.canonical(*texts, **options)]
    if name == "version":
        return ["yes", str(semver.Version(*texts))]
    if name == "key":
        return ["yes", semver.Version(*texts).sort_key]
    if name == "may_be_tag":
        return yes_or_no(semver.may_be_tag(*texts))
    if name == "package":
        return parts(package_json(semver.parse_package(*texts, **options)))
    if name == "reference":
        return parts(reference_json(semver.parse_reference(*texts)))
    return of_parts(name, texts, options)


def of_parts(name, texts, options):
    if name == "version_parts":
        return parts(version_json(semver.Version(*texts)))
    if name == "ranges":
        return parts([{"end": bound_json(it.end), "start": bound_json(it.start)} for it in semver.bounds(*texts, **options)])
    if name == "explain":
        return parts(explanation_json(semver.explain(*texts, **options)))
    if name == "errors":
        errors = range_errors(*texts, options)
        return None if errors is None else parts([error_json(it) for it in errors])
    if name in ("package_errors", "reference_errors"):
        call = semver.parse_package if name == "package_errors" else semver.parse_reference
        errors = package_errors(call, *texts, **options)
        return None if errors is None else parts([error_json(it) for it in errors])
    if name == "version_error":
        return ["yes", str(version_error(*texts))]
    if name == "name_with_version":
        return parts(semver.parse_name_with_version(*texts)._asdict())
    if name == "version_reference":
        return parts(version_reference_json(semver.parse_version_reference(*texts)))
    if name == "dependency":
        return parts(dependency_json(semver.parse_dependency(*texts, **options)))
    if name == "export_name":
        return ["yes", semver.export_name(*texts)]
    return None


def of_values(name, texts, options, again):
    """The answer of values that are parsed once, or of what is made of them again."""
    flag = {key: value for key, value in options.items() if key == "pre_releases"}

    def range_of(n):
        return again(semver.Range(texts[n], options.get("grammar", "npm")))

    def version_of(n):
        return again(semver.Version(texts[n]))

    if name == "fits":
        return yes_or_no(range_of(0).matches(version_of(1), **flag))
    if name in ("above", "below"):
        return yes_or_no(getattr(semver, f"is_{name}")(version_of(1), range_of(0), **flag))
    if name == "intersects":
        return yes_or_no(range_of(0).intersects(range_of(1)))
    if name == "equal":
        return yes_or_no(range_of(0) == range_of(1))
    if name == "normal":
        return ["yes", range_of(0).canonical]
    if name == "is_tag":
        return yes_or_no(range_of(0).is_tag)
    if name == "increment":
        kind, base, _, identifier = texts
        return ["yes", str(semver.increment(version_of(2), kind, identifier=identifier, base=BASES[base]))]
    if name == "difference":
        return [semver.difference(version_of(0), version_of(1)) or "none"]
    if name == "compare":
        one, other = version_of(0), version_of(1)
        return order(int(other.precedes(one)) - int(one.precedes(other)))
    if name == "scans":
        scans = range_of(0).scans(**flag)
        return ["yes", *(text for scan in scans for text in ("pre" if scan.is_pre else "release", scan.low, scan.high))]
    if name == "order":
        one, other = version_of(0), version_of(1)
        return order(int(one > other) - int(one < other))
    if name == "version":
        return ["yes", str(version_of(0))]
    if name == "key":
        return ["yes", version_of(0).sort_key]
    return None


def of_lists(name, texts, options):
    """The answer of versions that are parsed once."""
    if name == "sort":
        lines = unique(listed(texts[0]))
        return places(lines, semver.VersionList(lines).sort())
    if name not in ("filter", "best", "lowest"):
        return None
    range, flag = semver.Range(texts[0], options["grammar"]), {"pre_releases": options["pre_releases"]}
    lines = unique(listed(texts[1]))
    if name == "filter":
        return each_answer(lines, semver.VersionList(lines, skip_invalid=True).filter(range, **flag))
    return place(lines, getattr(semver.VersionList(lines), name)(range, **flag))


def of_itself(name, texts, options):
    """The answer of one value about itself, where both texts are the same."""
    if len(texts) != 2 or texts[0] != texts[1]:
        return None
    made = {}
    return of_values(name, texts, options, lambda it: made.setdefault(type(it), it))


def answer(ask, *arguments):
    try:
        return ask(*arguments)
    except semver.TagError:
        return ["tag"]
    except semver.IncrementError as error:
        return ["no increment", error.message]
    except semver.InvalidVersion as error:
        return ["invalid version", error.message, error.index]
    except (semver.InvalidRange, semver.InvalidPackage) as error:
        return ["invalid range", error.message, error.index]


WAYS = (
    ("of texts", of_texts),
    ("of values", lambda *asked: of_values(*asked, lambda it: it)),
    ("of lists", of_lists),
    ("of itself", of_itself),
    ("of copies", lambda *asked: of_values(*asked, copy.copy)),
    ("of pickles", lambda *asked: of_values(*asked, lambda it: pickle.loads(pickle.dumps(it)))),
)


def is_same(name, way, got, wanted):
    if not got[0].startswith("invalid"):
        # What is behind the JSON of a package is for other languages.
        return got == (wanted[:2] if name == "package" else wanted)
    code, message, index = got
    # A value knows no place among arguments, and a range that is the only one has none.
    is_placed = way in ("of texts", "of lists") and name != "increment" and not (name in ("best", "lowest", "simplify") and code == "invalid range")
    places = wanted[2:] if is_placed else []
    return wanted[:2] == [code, message] and places == ([] if index is None else [str(index)])


def each_is_right(question, wanted):
    """Whether the answer is right, for each way to ask."""
    name, *fields = question
    count = OPTIONS[name]
    options = dict(zip(("grammar", "pre_releases"), fields[:count]))
    if "pre_releases" in options:
        options["pre_releases"] = PRE[options["pre_releases"]]
    right = []
    for way, ask in WAYS:
        got = answer(ask, name, fields[count:], options)
        if got is None:
            continue
        right.append(is_same(name, way, got, wanted))
        if not right[-1]:
            print(f"{question} {way}: {got}, and not {wanted}")
    return right


def is_ours(question, wanted):
    """Whether the package has a function for the question, whose texts are valid."""
    return question[0] in OPTIONS and wanted[0] not in ("invalid UTF-8", "unknown grammar")


def main():
    with open(sys.argv[1], encoding="utf-8") as table:
        rows = [json.loads(line) for line in table]
    asked = [right for right in (each_is_right(*row) for row in rows if is_ours(*row)) if right]
    gc.collect()
    alive = ctypes.CDLL(os.environ["DENO_SEMVER_LIBRARY"]).heap_alive()
    print(f"{len(asked)} questions; {alive} blocks are still alive")
    return int(not asked or not all(map(all, asked)) or alive != 0)


sys.exit(main())
