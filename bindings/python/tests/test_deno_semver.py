"""What the table of questions doesn't ask: values, types of arguments, errors, lifetimes and threads. DENO_SEMVER_LIBRARY is the shared
library over the heap of bindings/heap.c."""

import copy
import ctypes
import doctest
import gc
import inspect
import itertools
import os
import pickle
import random
import re
import sys
import threading
import unittest
from pathlib import Path
from unittest import mock

import deno_semver as semver
from deno_semver import Range, Version, VersionList, _calls, _errors, _functions, _lists, _values

heap = ctypes.CDLL(os.environ["DENO_SEMVER_LIBRARY"])


def load_tests(loader, tests, ignore):
    for module in (semver, _errors, _functions, _lists, _values):
        tests.addTests(doctest.DocTestSuite(module, optionflags=doctest.IGNORE_EXCEPTION_DETAIL))
    return tests


class Values(unittest.TestCase):
    def test_versions(self):
        version = Version(" v1.2.3-beta.4+b.1 ")
        self.assertEqual((version.major, version.minor, version.patch), (1, 2, 3))
        self.assertEqual((version.pre, version.build), (("beta", "4"), ("b", "1")))
        self.assertEqual((str(version), repr(version)), ("1.2.3-beta.4+b.1", "Version('1.2.3-beta.4+b.1')"))
        self.assertEqual(Version("18446744073709551615.0.0").major, 2**64 - 1)

    def test_order(self):
        texts = ["1.0.0-alpha", "1.0.0-alpha.1", "1.0.0-alpha.beta", "1.0.0-beta", "1.0.0-beta.2", "1.0.0-beta.11", "1.0.0-rc.1", "1.0.0"]
        versions = [Version(text) for text in texts]
        self.assertEqual(sorted(reversed(versions)), versions)
        self.assertEqual(semver.sort(reversed(texts)), texts)
        self.assertEqual(semver.sort(versions, reverse=True), versions[::-1])
        self.assertEqual(semver.sort(["1.0.0+b", "2.0.0", "1.0.0+a"], reverse=True), ["2.0.0", "1.0.0+b", "1.0.0+a"])
        self.assertLess(Version("1.0.0+a"), Version("1.0.0+b"))
        self.assertFalse(Version("1.0.0+a").precedes(Version("1.0.0+b")))
        self.assertEqual({Version("1.0.0"), Version("v1.0.0")}, {Version("1.0.0")})
        self.assertNotEqual(Version("1.0.0"), "1.0.0")
        with self.assertRaises(TypeError):
            Version("1.0.0") < "1.0.1"

    def test_each_comparison(self):
        # In order: by numbers; pre-releases before their release; their numbers below 2**64 before texts; and builds of one precedence.
        precedences = [
            ["0.0.0-0"],
            ["0.0.0"],
            ["0.0.1-a", "0.0.1-a+1.1.1-1"],
            ["0.9.9"],
            ["0.10.0-18446744073709551615"],
            ["0.10.0--"],
            ["0.10.0-18446744073709551616"],
            ["0.10.0", "0.10.0+1-2.3", "0.10.0+10", "0.10.0+9", "0.10.0+a", "0.10.0+a.b", "0.10.0+ab"],
            ["0.10.10"],
            ["1.0.0-9"],
            ["1.0.0-10", "1.0.0-10+10"],
            ["1.0.0-A"],
            ["1.0.0-a"],
            ["1.0.0-a.1"],
            ["1.0.0-a-"],
            ["1.0.0"],
            ["2.0.0"],
            ["10.0.0"],
            ["9223372036854775807.0.0"],
            ["9223372036854775808.0.0-a"],
            ["9223372036854775808.0.0", "9223372036854775808.0.0+a"],
            ["9223372036854775808.0.9223372036854775808"],
            ["18446744073709551614.18446744073709551615.18446744073709551615"],
            ["18446744073709551615.0.18446744073709551614"],
            ["18446744073709551615.0.18446744073709551615"],
        ]
        ranked = [(text, rank) for rank, texts in enumerate(precedences) for text in texts]
        versions = [Version(text) for text, _ in ranked]
        for (one, first), (other, second) in itertools.product(enumerate(ranked), repeat=2):
            # Of other values as well, which no comparison has met.
            for left, right in ((versions[one], versions[other]), (Version(first[0]), Version(f" v{second[0]} "))):
                with self.subTest(one=left, other=right):
                    got = (left < right, left <= right, left > right, left >= right, left == right, left != right)
                    self.assertEqual(got, (one < other, one <= other, one > other, one >= other, one == other, one != other))
                    precedence = (first[1] > second[1]) - (first[1] < second[1])
                    self.assertEqual((semver.compare(left, right), left.precedes(right)), (precedence, precedence < 0))
        self.assertEqual(sorted(reversed(versions)), versions)
        self.assertEqual((max(versions), min(versions)), (versions[-1], versions[0]))

    def test_numbers_are_ordered_without_a_call(self):
        texts = ["0.9.0", "0.10.0-a", "1.0.0", "1.0.0", "1.0.1+b", "2.0.0"]
        with mock.patch.dict(_calls.CALLS, version_order=None):
            self.assertEqual([str(version) for version in sorted(map(Version, reversed(texts)))], texts)
            self.assertRaises(TypeError, lambda: Version("1.0.0-a") < Version("1.0.0"))

    def test_ranges(self):
        self.assertEqual(Range("^1.2"), Range(">=1.2 <2"))
        self.assertEqual(hash(Range("^1.2")), hash(Range(">=1.2 <2")))
        self.assertNotEqual(Range("^1.2"), Range("^1.3"))
        self.assertIn("1.3.0", Range("^1.2"))
        self.assertTrue(Range("latest").is_tag)
        self.assertEqual(repr(Range("1", "strict")), "Range('1', 'strict')")
        self.assertTrue(semver.matches(Range(" 1", "npm"), Version("1.5.0")))

    def test_frozen(self):
        for value, name in ((Version("1.0.0"), "major"), (Range("1"), "text")):
            with self.assertRaises(AttributeError):
                setattr(value, name, 2)
            with self.assertRaises(AttributeError):
                delattr(value, name)

    def test_lists(self):
        versions = [Version("1.0.0"), Version("1.2.0"), Version("2.0.0")]
        self.assertIs(semver.best("1", versions), versions[1])
        self.assertIs(semver.lowest("1", iter(versions)), versions[0])
        self.assertEqual(semver.filter("1", (text for text in ("1.0.0", "2.0.0"))), ["1.0.0"])
        self.assertEqual(semver.filter("1", []), [])
        self.assertEqual(semver.sort([]), [])
        self.assertIsNone(semver.best("1", []))
        self.assertEqual(semver.filter("*", ["\n1.0.0\n", "1.1.0"]), ["\n1.0.0\n", "1.1.0"])
        self.assertEqual(semver.common("1 ||\n2", "2\n"), "2.0.0")

    def test_simplify(self):
        range_, texts = "1.2.0 || 1.3.0", ["1.3.0+b", "1.1.0", "\n1.2.0\r\n"]
        versions = [Version(text) for text in texts]
        for listed in (texts, iter(texts), versions, iter(versions), VersionList(versions)):
            self.assertEqual(semver.simplify(range_, listed), ">=1.2.0")
        self.assertEqual(semver.simplify(Range(range_, "normalized"), versions), ">=1.2.0")
        self.assertEqual(semver.simplify(f"{range_} ||" * 20, []), f"{range_} ||" * 20)
        pre = ["1.0.0-a", "1.2.0"]
        answers = [semver.simplify(" || ".join(pre), pre, pre_releases=admitted) for admitted in (False, True)]
        self.assertEqual(answers, ["1.0.0-a || 1.2.0", "*"])
        self.assertRaises(semver.TagError, semver.simplify, "latest", versions)
        with self.assertRaises(semver.InvalidRange) as caught:
            semver.simplify("^1..2", ["x"])
        self.assertEqual((caught.exception.text, caught.exception.index), ("^1..2", None))
        for wrong, listed in (("1.x", ["1.2.0", "1.x", "x"]), ("\ud800", ["1.2.0", "\ud800"])):
            with self.assertRaises(semver.InvalidVersion) as caught:
                semver.simplify(range_, listed)
            self.assertEqual((caught.exception.text, caught.exception.index), (wrong, 1))

    def test_many(self):
        versions = [f"{n % 7}.{n % 11}.{n}" for n in range(100_000)]
        self.assertEqual(len(semver.filter("^1.2 || 3", versions)), sum(n % 7 == 1 and n % 11 >= 2 or n % 7 == 3 for n in range(100_000)))


class Plain(unittest.TestCase):
    """Plain versions, which the package takes without asking the library."""

    def test_random(self):
        pick = random.Random(1)
        numbers = ("0", "1", "9", "10", "007", "999999999999999", "1000000000000000", "18446744073709551616", "\u0661", "")
        identifiers = ("0", "1", "01", "0a", "a", "-", "--1", "rc", "RC-1", "18446744073709551616", "_", "é", "\u0661", "")
        plain = 0
        for _ in range(300_000):
            count = 3 if pick.randrange(20) else pick.randrange(5)
            text = ".".join(pick.choices(numbers, k=count))
            if pick.randrange(2):
                text += "-" + ".".join(pick.choices(identifiers, k=pick.randrange(4)))
            if _values._plain(text):
                plain += 1
                source = text.encode()
                self.assertEqual(_calls.read("version", source, len(source)), (_calls.YES, text), text)
        self.assertGreater(plain, 20_000)

    def test_which(self):
        for text in ("1.2.3", "0.0.0", "999999999999999.0.0", "1.2.3-0", "1.2.3-rc.1", "1.2.3--", "1.2.3-0a.18446744073709551616"):
            self.assertTrue(_values._plain(text), text)
        for text in ("1.2", "1.2.3.4", "01.2.3", "1.2.03", "1.2.3-01", "1.2.3-", "1.2.3+b", "v1.2.3", " 1.2.3", "1.2.3\n", "1000000000000000.0.0"):
            self.assertFalse(_values._plain(text), text)

    def test_no_call(self):
        with mock.patch.dict(_calls.CALLS, dict.fromkeys(_calls.CALLS)):
            version = Version("1.10.0-rc.1")
            self.assertEqual((str(version), version.minor, version.pre), ("1.10.0-rc.1", 10, ("rc", "1")))
            self.assertTrue(Version("1.9.0").precedes(version))
            self.assertRaises(TypeError, Version, "v1.10.0")

    def test_strings_of_another_class(self):
        class Text(str):
            def __str__(self):
                return "another string"

        self.assertEqual(type(str(Version(Text("1.2.3")))), str)
        self.assertEqual(Version(Text("1.2.3")), Version("1.2.3"))


class Lists(unittest.TestCase):
    def test_versions(self):
        for make in (str, Version):
            versions = [make(text) for text in ("1.2.0", "2.0.0-a", "1.10.0", "1.2.0+b")]
            listed = VersionList(iter(versions))
            self.assertEqual((len(listed), list(listed), repr(listed)), (4, versions, f"VersionList({versions!r})"))
            self.assertEqual(listed.filter("^1.2"), [versions[0], versions[2], versions[3]])
            self.assertEqual(listed.filter(Range("1 - 2", "npm"), pre_releases=True), versions)
            self.assertIs(listed.best(Range("*")), versions[2])
            self.assertIs(listed.best("*", pre_releases=True), versions[1])
            self.assertIs(listed.lowest("*"), versions[0])
            self.assertIs(listed.lowest(">=2", pre_releases=True), None)
            self.assertEqual(listed.sort(), [versions[0], versions[3], versions[2], versions[1]])

    def test_none(self):
        empty = VersionList([])
        self.assertEqual((len(empty), empty.filter("*"), empty.best("*"), empty.lowest("*"), empty.sort()), (0, [], None, None, []))

    def test_lines(self):
        self.assertEqual(VersionList(["\n1.0.0\r\n", "1.1.0"]).filter("*"), ["\n1.0.0\r\n", "1.1.0"])

    def test_invalid(self):
        with self.assertRaises(semver.InvalidVersion) as caught:
            VersionList(["1.0.0", "1.x", "x"])
        self.assertEqual((caught.exception.text, caught.exception.index, caught.exception.start), ("1.x", 1, 2))
        listed = VersionList(["1.0.0", "1.x", "0.1.0"], skip_invalid=True)
        self.assertEqual((len(listed), listed.filter("*"), listed.sort()), (3, ["1.0.0", "0.1.0"], ["0.1.0", "1.0.0"]))
        for ask in (listed.filter, listed.best, listed.lowest):
            self.assertRaises(semver.TagError, ask, "latest")
            self.assertRaises(semver.InvalidRange, ask, "^1..2")
            for wrong in (3, b"1", None):
                self.assertRaises(TypeError, ask, wrong)
                self.assertRaises(TypeError, ask, "1", pre_releases=wrong)
        for wrong in (3, "1.0.0", None, [3], Version("1.0.0")):
            self.assertRaises(TypeError, VersionList, wrong)

    def test_copies(self):
        listed = VersionList(["1.2.0", "x"], skip_invalid=True)
        for make in (copy.copy, copy.deepcopy, lambda it: pickle.loads(pickle.dumps(it))):
            again = make(listed)
            self.assertEqual((list(again), again.filter("^1")), (["1.2.0", "x"], ["1.2.0"]))


class Errors(unittest.TestCase):
    def test_texts(self):
        with self.assertRaises(semver.InvalidRange) as caught:
            semver.matches("^1.2.3.4", "1.0.0")
        for error in (caught.exception, pickle.loads(pickle.dumps(caught.exception)), copy.copy(caught.exception)):
            self.assertEqual((error.text, error.message, error.index), ("^1.2.3.4", "Unexpected character.", None))
            self.assertEqual((error.start, error.end, error.expected[:2], error.expected[-1]), (6, 8, ("digit", "x"), "end"))
            self.assertIsInstance(error, ValueError)
            self.assertEqual(str(error), "'^1.2.3.4': Unexpected character. (at index 6)")
        with self.assertRaises(semver.InvalidVersion) as caught:
            semver.sort(["1.0.0", "1.x", "foo"])
        self.assertEqual((caught.exception.text, caught.exception.index), ("1.x", 1))
        with self.assertRaises(semver.InvalidVersion) as caught:
            semver.sort(["1.0.0", "1.x", "2.0.0"], reverse=True)
        self.assertEqual((caught.exception.text, caught.exception.index), ("1.x", 1))
        with self.assertRaises(semver.InvalidVersion) as caught:
            semver.sort(["1.x", "1.0.0", "2.0.0"], reverse=True)
        self.assertEqual((caught.exception.text, caught.exception.index), ("1.x", 0))
        with self.assertRaises(semver.InvalidVersion) as caught:
            semver.filter("1", ["1.0.0", "1.x"])
        self.assertEqual(caught.exception.index, 1)
        with self.assertRaises(semver.InvalidRange) as caught:
            semver.common("1", "2", "3 4 <")
        for error in (caught.exception, pickle.loads(pickle.dumps(caught.exception)), copy.copy(caught.exception)):
            self.assertEqual((error.index, str(error)), (2, "'3 4 <' (item 2): Unexpected character. (at index 5)"))
        with self.assertRaises(semver.InvalidPackage) as caught:
            semver.parse_package("@a")
        self.assertEqual((caught.exception.start, caught.exception.end, caught.exception.expected), (2, 2, ("/",)))
        with self.assertRaises(semver.InvalidPackage) as caught:
            semver.parse_package("@é/name@^1..2")
        self.assertEqual((caught.exception.start, caught.exception.end), (11, 13))
        with self.assertRaises(semver.InvalidPackage) as caught:
            semver.parse_reference("npm:name@^/path")
        self.assertEqual((caught.exception.start, caught.exception.expected), (10, ("digit", "x", "*")))

    def test_places_in_ranges(self):
        for text, grammar, start, end in (
            ("^1..2", "npm", 3, 5),
            ("\u3000\u00a0^1..2 ", "npm", 5, 7),
            ("1 || <é || 1..2", "normalized", 6, 8),
            ("\u3000<é>", "normalized", 1, 4),
            ("😀", "npm", 0, 1),
            ("", "strict", 0, 0),
            ("^99999999999999999999", "npm", 20, 21),
            ("^99999999999999999999", "strict", 20, 21),
        ):
            with self.subTest(text=text, grammar=grammar), self.assertRaises(semver.InvalidRange) as caught:
                Range(text, grammar)
            self.assertEqual((caught.exception.start, caught.exception.end), (start, end), text)
        with self.assertRaises(semver.InvalidRange) as caught:
            semver.common("1", "\u3000<😀")
        self.assertEqual(str(caught.exception), "'\\u3000<😀' (item 1): Unexpected character. (at index 2)")

    def test_places_in_versions(self):
        asks = (Version, Range("1").matches, lambda text: semver.matches("1", text), lambda text: semver.sort([text]))
        places = {"1.2": 3, " v1.x": 4, "\u3000\u00a01.é.3": 4, "1.2.3-é": 6, "1.99999999999999999999.3": 21, "": 0}
        for text, start in places.items():
            for ask in asks:
                with self.assertRaises(semver.InvalidVersion) as caught:
                    ask(text)
                error = caught.exception
                self.assertEqual((error.start, error.end, error.expected), (start, len(text), ()), text)

    def test_explanations(self):
        explained = semver.explain("é || >=1.2.3-b <2 || >1.0.0 <1.0.1")
        self.assertEqual(explained.canonical, "^1.2.3-b || >1.0.0 <1.0.1")
        left_out, range_, empty = explained.alternatives
        self.assertEqual((left_out.text, left_out.start, left_out.end, left_out.pre_releases), ("é", None, None, ()))
        self.assertEqual((left_out.error.text, left_out.error.start, left_out.error.end), ("é || >=1.2.3-b <2 || >1.0.0 <1.0.1", 1, 2))
        start, end = semver.Bound("1.2.3-b", True), semver.Bound("2.0.0", False)
        self.assertEqual(range_[:6], (">=1.2.3-b <2", start, end, ("1.2.3",), "1.2.3-b", None))
        self.assertEqual(range_.comparators, ((">=1.2.3-b", start, None), ("<2", semver.Bound("0.0.0", True), end)))
        self.assertEqual(left_out.comparators, ())
        self.assertEqual((empty.text, empty.lowest), (">1.0.0 <1.0.1", None))
        self.assertEqual(semver.explain(Range("1", "strict"), pre_releases=True).alternatives[0].pre_releases, "all")
        self.assertEqual(pickle.loads(pickle.dumps(range_)), range_)
        self.assertRaises(semver.TagError, semver.explain, "latest")
        self.assertRaises(semver.InvalidRange, semver.explain, "1 || 1..2", grammar="normalized")

    def test_tags(self):
        for ask in (
            lambda: semver.matches("latest", "1.0.0"),
            lambda: semver.filter("latest", ["1.0.0"]),
            lambda: semver.best("latest", []),
            lambda: semver.common("1", "latest"),
            lambda: semver.min_version("latest"),
            lambda: semver.is_subset("1", "latest"),
            lambda: semver.is_equivalent("1", "latest"),
            lambda: Range("latest").matches("1.0.0"),
            lambda: "1.0.0" in Range("latest"),
        ):
            self.assertRaises(semver.TagError, ask)
        self.assertEqual(semver.canonical("latest"), "latest")

    def test_surrogates(self):
        self.assertRaises(semver.InvalidVersion, Version, "1.0.0-\ud800")
        self.assertRaises(semver.InvalidRange, Range, "\udcff")
        self.assertFalse(semver.may_be_tag("latest\ud800"))
        with self.assertRaises(semver.InvalidVersion) as caught:
            semver.filter("1", ["1.0.0", "é\ud800"])
        self.assertEqual((caught.exception.index, caught.exception.start, caught.exception.end), (1, 1, 2))

    def test_grammars(self):
        self.assertRaises(ValueError, Range, "1", "loose")
        self.assertRaises(ValueError, semver.matches, Range("1", "strict"), "1.0.0", grammar="npm")
        self.assertRaises(ValueError, semver.common, Range("1", "strict"), Range("1"))
        self.assertFalse(semver.matches("1 || 2", "3.0.0", grammar="normalized"))
        # The grammar of one of two ranges is that of the other, too.
        for ranges in ((Range("1", "strict"), ""), ("", Range("1", "strict"))):
            self.assertRaises(semver.InvalidRange, semver.intersects, *ranges)
            self.assertRaises(ValueError, semver.intersects, *ranges, grammar="npm")


class Arguments(unittest.TestCase):
    GOOD = {"grammar": "npm", "pre_releases": False, "skip_invalid": False, "reverse": False, "versions": ["1.0.0"], "text": "npm:a@1.0.0"}
    GOOD.update(release_type="patch", identifier="", base=0)

    def test_each_parameter(self):
        functions = [getattr(semver, name) for name in semver.__all__ if inspect.isfunction(getattr(semver, name))]
        for function in functions:
            for name, parameter in inspect.signature(function).parameters.items():
                if parameter.kind == parameter.VAR_POSITIONAL or name in ("skip_invalid", "reverse"):
                    continue
                good = {key: self.GOOD.get(key, "1.0.0") for key in inspect.signature(function).parameters}
                good.pop("ranges", None)
                wrong = (1, "yes", 1.0) if name == "pre_releases" else (3, b"1", 1.0, ["1"], object())
                if name == "base":
                    wrong = ("0", 1.0, True)
                for value in wrong if name != "versions" else (3, "1.0.0", None):
                    with self.subTest(function=function.__name__, parameter=name, value=value):
                        with self.assertRaises(TypeError):
                            function(**{**good, name: value})

    def test_steps(self):
        self.assertRaises(ValueError, semver.increment, "1.0.0", "pre")
        self.assertRaises(ValueError, semver.increment, "1.0.0", "patch", base=2)
        with self.assertRaises(semver.IncrementError) as caught:
            semver.increment(Version("1.0.0"), "release")
        self.assertEqual((caught.exception.message, caught.exception.text), ("The version is a release already.", "1.0.0"))

    def test_values(self):
        for wrong in (3, b"1", None, 2**100, ["1"]):
            self.assertRaises(TypeError, Version, wrong)
            self.assertRaises(TypeError, Range, wrong)
            self.assertRaises(TypeError, Range("1").matches, wrong)
            self.assertRaises(TypeError, Range("1").intersects, wrong)
            self.assertRaises(TypeError, Version("1.0.0").precedes, wrong)
            self.assertRaises(TypeError, Range, "1", wrong)
        self.assertRaises(TypeError, semver.common)
        with self.assertRaisesRegex(TypeError, r"^ranges\[1\] must be str, not int$"):
            semver.common("1", 2)


class Lifetimes(unittest.TestCase):
    def setUp(self):
        self.reports = []
        hook, sys.unraisablehook = sys.unraisablehook, self.reports.append
        self.addCleanup(setattr, sys, "unraisablehook", hook)

    def tearDown(self):
        heap.heap_limit(ctypes.c_long(-1))
        gc.collect()
        self.assertEqual((self.reports, heap.heap_alive()), ([], 0))

    def test_copies(self):
        for make in (copy.copy, copy.deepcopy, lambda it: pickle.loads(pickle.dumps(it))):
            version, range_ = Version("v1.3.0-a"), Range(" 1.x", "normalized")
            copied, again = make(version), make(range_)
            del version, range_
            self.assertEqual((str(copied), again.text, again.grammar), ("1.3.0-a", " 1.x", "normalized"))

    def test_values_that_were_never_made(self):
        for kind in (Version, Range):
            self.assertRaises(TypeError, kind.__new__, kind)
            empty = object.__new__(kind)
            self.assertRaises(AttributeError, str, empty)
            self.assertRaises(AttributeError, hash, empty)
        for wrong in ("x", "\ud800", 3, None):
            self.assertRaises((TypeError, ValueError), Version, wrong)
        self.assertRaises((TypeError, ValueError), Range, "1", "x")

    def test_deletion_by_hand(self):
        version, other = Version("1.0.0-a"), Version("1.0.0")
        self.assertTrue(version.precedes(other))
        version._held.__del__()
        self.assertRaises(ValueError, version.precedes, other)
        self.assertRaises(ValueError, other.precedes, version)
        version._held.__del__()

    def test_made_twice(self):
        version = Version("1.0.0")
        version.__init__("2.0.0")
        self.assertEqual((str(version), version < Version("2.0.0")), ("1.0.0", True))

    def test_long_texts(self):
        text = "1.2.3-" + "a" * 100_000
        self.assertEqual(str(Version(f" v{text} ")), text)
        self.assertEqual(Range(f" ={text} ").canonical, text)

    def test_out_of_memory(self):
        version, range_ = Version("1.3.0"), Range("^1")
        long = "1.0.0-" + "a." * 50 + "b"
        listed = VersionList(["1.0.0", "2.0.0"])
        for ask in (
            lambda: semver.matches("1", long),
            lambda: semver.sort([long]),
            lambda: semver.filter("1 || 2", [long]),
            lambda: semver.best("1", [long]),
            lambda: Version(f"v{long}"),
            lambda: Range("1 || 2 || 3"),
            lambda: range_.matches(long),
            lambda: semver.common("1 || 2", "2 || 3"),
            lambda: semver.parse_package("a@1 || 2", grammar="npm"),
            lambda: semver.explain("1 || 2"),
            lambda: VersionList([long]),
            lambda: listed.sort(),
        ):
            heap.heap_limit(ctypes.c_long(0))
            self.assertRaises(MemoryError, ask)
            heap.heap_limit(ctypes.c_long(-1))
        self.assertTrue(range_.matches(version))

    def test_out_of_memory_for_an_error(self):
        for ask, error in ((lambda: Range("^1..2"), semver.InvalidRange), (lambda: Version("1..2"), semver.InvalidVersion)):
            raised, allocations = MemoryError, 0
            while raised is MemoryError:
                heap.heap_limit(ctypes.c_long(allocations))
                with self.assertRaises((MemoryError, error)) as caught:
                    ask()
                raised, allocations = type(caught.exception), allocations + 1
            self.assertGreater(allocations, 1)

    def test_values_and_themselves(self):
        range_, none, version = Range("^1.2 || 3"), Range("<0.0.0"), Version("1.0.0-a+b")
        self.assertEqual((range_ == range_, range_.intersects(range_), none.intersects(none)), (True, True, False))
        self.assertEqual((version == version, version < version, version.precedes(version)), (True, False, False))

    def test_threads(self):
        self._ask_by_threads()

    def test_threads_without_a_lock(self):
        """As in an interpreter without its lock, which calls by CDLL give up."""
        library, freed = ctypes.CDLL(_calls._path()), {}
        for name, call in _calls.CALLS.items():
            freed[name] = getattr(library, f"semver_{name}")
            freed[name].argtypes, freed[name].restype = call.argtypes, call.restype
        with mock.patch.dict(_calls.CALLS, freed):
            self._ask_by_threads()

    def _ask_by_threads(self):
        """Asks the same values by eight threads at once."""
        range_, versions = Range("^1.2 || 3"), [Version(f"1.{n // 10 + 2}.0-a.{n}+b") for n in range(50)]
        wrong = []

        def ask():
            for _ in range(20):
                found = [version for version in versions if range_.matches(version, pre_releases=True)]
                if len(found) != 40 or semver.sort(versions) != versions:
                    wrong.append(found)
                before = [one.precedes(other) for one, other in zip(versions, [*versions[1:], versions[-1]])]
                if before.count(True) != 49 or not (range_ == range_ and range_.intersects(range_)):
                    wrong.append(before)

        threads = [threading.Thread(target=ask) for _ in range(8)]
        for thread in threads:
            thread.start()
        for thread in threads:
            thread.join()
        self.assertEqual(wrong, [])


class Releases(unittest.TestCase):
    def test_api(self):
        for api in (_calls.API - 1, _calls.API + 1):
            with mock.patch.object(_calls, "API", api), self.assertRaises(ImportError):
                _calls._check_api()

    def test_version(self):
        top = Path(__file__).resolve().parents[3]
        for path, pattern in (
            ("Makefile", r"^VERSION := (.+)$"),
            ("bindings/c/semver.h", r'^#define SEMVER_VERSION "(.+)"$'),
            ("bindings/rust/Cargo.toml", r'^version = "(.+)"$'),
            ("bindings/js/package.json", r'^  "version": "(.+)",$'),
        ):
            with self.subTest(path=path):
                self.assertEqual(re.findall(pattern, (top / path).read_text(), re.MULTILINE), [semver.__version__])


if __name__ == "__main__":
    unittest.main()
