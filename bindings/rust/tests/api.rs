//! What the table of questions can't ask: errors, packages and references, ranges that a caller builds, copies and threads.

use deno_semver_proved::jsr::{
    normalized_export_name, JsrDepPackageReq, JsrDepPackageReqParseError, JsrPackageNvReference, JsrPackageReqReference,
};
use deno_semver_proved::lists::{self, Best, Fit, Simplified, VersionList};
use deno_semver_proved::lowest::{self, Lowest};
use deno_semver_proved::npm::{parse_npm_version, parse_npm_version_req, NpmPackageNvReference, NpmPackageReqReference};
use deno_semver_proved::package::{
    json, PackageKind, PackageNv, PackageReq, PackageReqPartsParseError, PackageReqReferenceParseError,
};
use deno_semver_proved::{
    CowVec, Grammar, ParseErrorFailureError, Place, PreRelease, RangeBound, RangeSetOrTag, StackString, Version,
    VersionBoundKind, VersionParts, VersionRange, VersionRangeSet, VersionReq, WILDCARD_VERSION_REQ,
};
use std::cmp::Ordering;
use std::collections::{BTreeSet, HashMap, HashSet};
use std::error::Error;
use std::mem;
use std::panic::{RefUnwindSafe, UnwindSafe};
use std::sync::{Barrier, LazyLock};
use std::thread;

fn version(text: &str) -> Version {
    Version::parse_standard(text).unwrap()
}

fn npm(text: &str) -> VersionReq {
    VersionReq::parse_from_npm(text).unwrap()
}

#[allow(clippy::mutable_key_type)]
#[test]
fn requirements() {
    let req = npm(" >=1.2 <2 || 3 ");
    let rc = version("1.3.0-rc.1");
    assert!(!req.matches(&rc) && req.matches_with(&rc, PreRelease::Admitted));
    assert_eq!((req.version_text(), req.to_string_normalized().as_str()), (">=1.2 <2 || 3", "^1.2.0 || 3"));
    assert_eq!((format!("{req:?}"), format!("{rc:?}")), ("VersionReq(>=1.2 <2 || 3)".into(), "Version(1.3.0-rc.1)".into()));
    assert_eq!(req.min_version(PreRelease::Restricted), Lowest::Version("1.2.0".into()));
    assert_eq!(HashSet::from([req.clone(), req, npm("^1.2.0 || 3.x")]).len(), 1);
}

#[test]
fn tags() {
    let tag = VersionReq::parse_from_specifier("latest").unwrap();
    assert_eq!((tag.tag(), tag.range(), npm("1").tag()), (Some("latest"), None, None));
    assert_eq!(tag.inner(), &RangeSetOrTag::Tag("latest".into()));
    // A tag that reads as a range stays a tag.
    let one = VersionReq::from_raw_text_and_inner("one".into(), RangeSetOrTag::Tag("1".into()));
    assert_eq!((one.tag(), one.version_text(), one == npm("1")), (Some("1"), "one", false));
}

#[test]
#[should_panic(expected = "the tag latest")]
fn tags_match_nothing() {
    npm("latest").matches(&version("1.0.0"));
}

#[test]
#[should_panic(expected = "a valid tag: a b")]
fn tags_are_valid() {
    VersionReq::from_raw_text_and_inner("".into(), RangeSetOrTag::Tag("a b".into()));
}

// The order of versions is that of their texts, which don't change.
#[allow(clippy::mutable_key_type)]
#[test]
fn versions() {
    let v = version(" = v1.2.3-pre.4+build.5");
    assert_eq!((v.major, v.minor, v.patch), (1, 2, 3));
    assert_eq!((v.pre.join("."), v.build.join(".")), ("pre.4".into(), "build.5".into()));
    assert_eq!(v.clone().into_req(), npm("1.2.3-pre.4+build.5"));
    assert_eq!(Version::default(), version("0.0.0"));
    let long = format!("1.2.3-{}", "a.".repeat(200) + "b");
    assert_eq!((version(&long).to_string(), version(&long).pre.len()), (long.clone(), 201));
    let parts = VersionParts { major: 1, pre: ["a.b".into()].into(), ..VersionParts::default() };
    assert_eq!(Version::from_parts(parts).unwrap_err().to_string(), "Invalid version");
    let parts = VersionParts { build: ["é".into()].into(), ..VersionParts::default() };
    let error = Version::from_parts(parts).unwrap_err();
    assert_eq!((error.message().starts_with("An identifier of a version"), error.source.place()), (true, None));
    let sorted: BTreeSet<Version> = ["1.0.0", "1.0.0-a", "0.1.0"].map(version).into();
    assert_eq!(sorted.iter().map(Version::to_string).collect::<Vec<_>>(), ["0.1.0", "1.0.0-a", "1.0.0"]);
}

/// The displays of an error and of its causes.
fn chain(error: &dyn Error) -> Vec<String> {
    std::iter::successors(Some(error), |error| (*error).source()).map(ToString::to_string).collect()
}

#[test]
fn errors() {
    let error = parse_npm_version("1.0").unwrap_err();
    let message = "Missing patch version. Versions must be in the form MAJOR.MINOR.PATCH (ex. 1.0.0).";
    assert_eq!((error.message(), error.source.code_snippet.as_deref()), (message, Some("1.0")));
    assert_eq!(chain(&error), ["Invalid npm version".to_string(), format!("{message}\n  1.0\n  ~")]);
    let error = parse_npm_version_req(">=^1").unwrap_err();
    assert_eq!(chain(&error), ["Invalid version requirement", "Unexpected character."]);
    let error = PackageReq::from_str("name@").unwrap_err();
    let line = "Invalid specifier version requirement";
    assert_eq!(chain(&error), ["Invalid package requirement 'name@'", line, "Empty version constraint."]);
    assert_eq!(error.message(), "Empty version constraint.");
    let error = JsrDepPackageReq::from_str("other:a@1").unwrap_err();
    assert_eq!(error, JsrDepPackageReqParseError::NotExpectedScheme("other".into()));
    let error = PackageNv::from_str("name@1").unwrap_err();
    assert_eq!(error.message, "Missing minor version. Versions must be in the form MAJOR.MINOR.PATCH (ex. 1.0.0).");
    assert_eq!(lists::filter(Grammar::Npm, "!", [""; 0], PreRelease::Restricted).unwrap_err().place, 0);
}

// What a person sees of an error that `main` returns: the causes, the string, and a mark at the place where it goes wrong.
#[test]
fn errors_show_the_place() {
    let version = format!("{:?}", parse_npm_version(" 1.0").unwrap_err());
    let message = "Missing patch version. Versions must be in the form MAJOR.MINOR.PATCH (ex. 1.0.0).";
    assert_eq!(version, format!("Invalid npm version: {message}\n   1.0\n      ^"));
    let normalized = VersionReq::parse_from_normalized("1\t|| <é || 1..2").unwrap_err();
    let line = "Invalid normalized version requirement: Unexpected character.";
    assert_eq!(format!("{normalized:?}"), format!("{line}\n  1 || <é || 1..2\n        ^"));
    let package: Box<dyn Error> = PackageReq::from_str("@a/é@^1..2").unwrap_err().into();
    let line = "Invalid package requirement '@a/é@^1..2': Invalid specifier version requirement: Unexpected character.";
    assert_eq!(format!("{package:?}"), format!("{line}\n  ^1..2\n     ^"));
    let dependency = JsrDepPackageReq::from_str("npm:a@1/b").unwrap_err();
    let line = "Invalid package requirement 'a@1/b': Packages in the format <scope>/<name> must start with an '@' symbol.";
    assert_eq!(format!("{dependency:?}"), line);
    // A long string is cut.
    let text = format!("{}é!{}", "1 ".repeat(1000), " 2".repeat(1000));
    let shown = format!("{:?}", VersionReq::parse_from_normalized(&text).unwrap_err());
    let lines: Vec<&str> = shown.lines().collect();
    assert!(lines.len() == 3 && lines[1].chars().count() == 102, "{shown}");
    assert_eq!(lines[1].chars().nth(lines[2].len() - 1), Some('é'));
}

/// The place of an error, but for what is expected there.
fn span(error: ParseErrorFailureError) -> Option<(usize, usize)> {
    error.place().map(|place| (place.start, place.end))
}

#[test]
fn places_of_errors() {
    let npm = |text| parse_npm_version_req(text).unwrap_err().source;
    let expected = ["digit", "x", "v", "letter", "-", "+", "whitespace", ",", "&", "|", "end"].map(String::from).into();
    assert_eq!(npm("^1.2.3.4").place(), Some(Place { start: 6, end: 8, expected }));
    assert_eq!(npm("latest!").place(), Some(Place { start: 6, end: 7, expected: Vec::new() }));
    // The text is the one that was given, with the whitespace around it.
    assert_eq!(span(npm("\u{3000}\u{a0}^1..2 ")), Some((8, 10)));
    let normalized = VersionReq::parse_from_normalized("1 || <é || 1..2").unwrap_err();
    assert_eq!(span(normalized.source), Some((6, 9)));
    let strict = |text| VersionReq::parse_from_specifier(text).unwrap_err().source;
    assert_eq!((span(strict("")), span(strict("^99999999999999999999"))), (Some((0, 0)), Some((20, 21))));
    let version = |text| parse_npm_version(text).unwrap_err().source;
    assert_eq!(version("1.2").place(), Some(Place { start: 3, end: 3, expected: Vec::new() }));
    assert_eq!(span(version("\u{3000}1.é")), Some((5, 7)));
    assert_eq!(span(version("1.99999999999999999999.3")), Some((21, 24)));
}

#[test]
fn places_in_packages() {
    let source = |text| match PackageReq::from_str(text).unwrap_err().source {
        PackageReqPartsParseError::SpecifierVersionReq(error) => error.source,
        error => panic!("{text}: {error}"),
    };
    assert_eq!(span(source("@a/é@^1..2")), Some((3, 5)));
    let error = source("@a/b@1/c");
    assert_eq!((error.code_snippet.as_deref(), span(error.clone())), (Some("/c"), None));
    let whole = |text| {
        PackageReq::from_str_loose(text).unwrap_err().place().map(|place| (place.start, place.end, place.expected.join(" ")))
    };
    for (text, start, expected) in [("", 0, "name"), ("@a", 2, "/"), ("@a/", 3, "name"), ("a/b", 0, "@"), ("@a/b@1/c", 6, "")] {
        assert_eq!(whole(text), Some((start, text.len(), expected.to_string())), "{text}");
    }
    assert_eq!(whole("@a/b@^1..2").map(|place| place.0), Some(8));
    let reference = |text| match JsrPackageReqReference::from_str(text).unwrap_err() {
        PackageReqReferenceParseError::Invalid(error) => error.place().map(|place| place.start),
        PackageReqReferenceParseError::InvalidPathWithVersion(error) => error.place().map(|place| place.start),
        error => panic!("{text}: {error}"),
    };
    assert_eq!([reference("jsr:@a"), reference("jsr:@a/b@1..2"), reference("jsr:@a/b/c@1")], [Some(6), Some(11), Some(10)]);
}

#[test]
fn packages() {
    let req = PackageReq::from_str_loose("@scope/name@1.x").unwrap();
    assert_eq!((req.to_string(), req.to_string_normalized().as_str()), ("@scope/name@1.x".into(), "@scope/name@1"));
    for (text, is_right) in [
        ("", (|error| *error == PackageReqPartsParseError::NoPackageName) as fn(&PackageReqPartsParseError) -> bool),
        ("@scope", |error| *error == PackageReqPartsParseError::InvalidPackageName),
        ("scope/name", |error| *error == PackageReqPartsParseError::MissingAtSymbol),
        ("name@", |error| matches!(error, PackageReqPartsParseError::SpecifierVersionReq(_))),
        ("@scope/name@1/path", |error| error.message() == "Unexpected character '/'"),
    ] {
        assert!(is_right(&PackageReq::from_str(text).unwrap_err().source), "{text}");
    }
    let nv = PackageNv::from_str("@scope/name@1.2.3").unwrap();
    assert_eq!((nv.scope(), format!("{nv:?}")), (Some("@scope"), "@scope/name@1.2.3".to_string()));
    assert_eq!(nv.into_req(), PackageReq::from_str("@scope/name@1.2.3").unwrap());
}

#[test]
fn packages_are_ordered() {
    let texts = ["a@tag-2", "a@tag-1", "a@>3.0.0", "a@3.0.0", "a@3.0.0+b", "a@3", "a@>=3.0.0", "a@>=3 || 5.x", "a@1", "a", "b"];
    let reqs = texts.map(|text| PackageReq::from_str_loose(text).unwrap());
    assert!(reqs.is_sorted_by(|one, other| one < other));
}

#[test]
fn references() {
    let reference = JsrPackageReqReference::from_str("jsr:/@scope/name@^1/mod.ts").unwrap();
    assert_eq!((reference.sub_path(), reference.export_name().as_ref()), (Some("mod.ts"), "./mod.ts"));
    assert_eq!((reference.to_string(), &*reference.req().name), ("jsr:@scope/name@^1/mod.ts".into(), "@scope/name"));
    let not_npm = NpmPackageReqReference::from_specifier(&"jsr:a").unwrap_err();
    assert_eq!(not_npm, PackageReqReferenceParseError::NotExpectedScheme(PackageKind::Npm));
    assert_eq!(chain(&not_npm), ["Not npm: specifier"]);
    let PackageReqReferenceParseError::InvalidPathWithVersion(error) =
        JsrPackageReqReference::from_str("jsr:@a/b/c@1").unwrap_err()
    else {
        panic!("the version is in the path");
    };
    assert_eq!((error.current.as_str(), error.suggested.as_str()), ("@a/b/c@1", "@a/b@1/c"));
    let pinned = NpmPackageNvReference::from_str("npm:name@1.2.3/path").unwrap();
    assert_eq!((pinned.to_string(), pinned.nv().to_string()), ("npm:name@1.2.3/path".into(), "name@1.2.3".into()));
    let not_jsr = JsrPackageNvReference::from_str("npm:name@1.2.3").unwrap_err();
    assert_eq!(not_jsr.message, "Unexpected character.");
    assert_eq!(chain(&not_jsr), ["Invalid package name and version reference 'npm:name@1.2.3'. Unexpected character."]);
}

// The parts as the library's JSON has them.
fn package_json(req: &PackageReq) -> String {
    let (scope, name) = match req.name.strip_prefix('@').map(|name| name.split_once('/').unwrap()) {
        Some((scope, name)) => (format!("\"{scope}\""), name),
        None => ("null".to_string(), req.name.as_str()),
    };
    let (normal, requirement) = (req.version_req.to_string_normalized(), req.version_req.version_text());
    format!(r#"{{"name":"{name}","normal":"{normal}","requirement":"{requirement}","scope":{scope}}}"#)
}

fn reference_json(export: &str, kind: &str, package: &str, path: Option<&str>) -> String {
    let path = path.map_or("null".to_string(), |path| format!("\"{path}\""));
    format!(r#"{{"export":{export},"kind":"{kind}","package":{package},"path":{path}}}"#)
}

fn nv_json(nv: &PackageNv) -> String {
    let scope = nv.scope().map_or("null".to_string(), |scope| format!("\"{}\"", &scope[1..]));
    let rest = &nv.name[nv.scope().map_or(0, str::len)..];
    let name = rest.strip_prefix('/').filter(|_| nv.scope().is_some()).unwrap_or(rest);
    format!(r#"{{"name":"{name}","scope":{scope},"version":"{}"}}"#, nv.version)
}

/// Numbers below others, other ones for each seed.
fn random(seed: u32) -> impl FnMut(usize) -> usize {
    let mut state = u64::from(seed);
    move |below| {
        state = state.wrapping_add(0x9e37_79b9_7f4a_7c15);
        let mixed = (state ^ (state >> 30)).wrapping_mul(0xbf58_476d_1ce4_e5b9);
        let mixed = (mixed ^ (mixed >> 27)).wrapping_mul(0x94d0_49bb_1331_11eb);
        (mixed ^ (mixed >> 31)) as usize % below
    }
}

/// A text of pieces of packages, another one for each seed.
fn text(seed: u32) -> String {
    let pieces = ["@", "@", "/", "/", "a", "b", "1", "1.2.3", "^1", "-", "_", ".", " ", "é", "x", "latest", "||"];
    let mut next = random(seed);
    (0..next(8)).map(|_| pieces[next(pieces.len())]).collect()
}

/// The text of a version, another one for each seed.
fn version_text(seed: u32) -> String {
    let pieces: [&[&str]; 7] = [
        &["", "", "", "v", " = v"],
        &["0", "1", "01", "18446744073709551615"],
        &[".0", ".1", ".9", ".10"],
        &[".0", ".1", ".2"],
        &["", "", "", "-0", "-1", "-a", "-a.1", "-a.b", "b"],
        &["", "", "", "+1", "+a", "+a.b"],
        &["", "", " "],
    ];
    let mut next = random(seed);
    pieces.map(|pieces| pieces[next(pieces.len())]).concat()
}

// A release is its three numbers, which the crate compares, hashes and displays itself. The proved calls of texts must answer the same.
#[test]
fn versions_are_those_of_the_library() {
    let ranges = [
        "^1",
        "~1.0",
        ">=1.0.0-a <2",
        "1.1.1 || >1.10.0-a.a",
        "<=0.9.0-1 || 18446744073709551615.0.x",
        "*",
        "0.1 - 1.1",
        "1.1.1+a-b || ^0.1",
    ];
    for seed in 0..60_000 {
        let texts = [version_text(2 * seed), version_text(2 * seed + 1)];
        let (one, other) = (version(&texts[0]), version(&texts[1]));
        let json = format!(r#"{{"name":"a","scope":null,"version":"{one}"}}"#);
        assert_eq!(json::name_with_version(&format!("a@{}", texts[0])), Ok(json));
        let is_sorted = |one: &String, other: &String| lists::sort([one, other]) == Ok(vec![0, 1]);
        let order = match (is_sorted(&texts[0], &texts[1]), is_sorted(&texts[1], &texts[0])) {
            (true, true) => Ordering::Equal,
            (true, false) => Ordering::Less,
            (false, _) => Ordering::Greater,
        };
        assert_eq!(one.cmp_precedence(&other), order, "{texts:?}");
        assert_eq!(one.cmp(&other), order.then(one.build.cmp(&other.build)), "{texts:?}");
        let is_same = one.to_string() == other.to_string();
        assert_eq!((one == other, HashSet::from([one.clone(), other]).len() == 1), (is_same, is_same), "{texts:?}");
        let range = ranges[seed as usize % ranges.len()];
        for pre_release in [PreRelease::Restricted, PreRelease::Admitted] {
            let fit = if npm(range).matches_with(&one, pre_release) { Fit::Yes } else { Fit::No };
            assert_eq!(lists::filter(Grammar::Npm, range, [&texts[0]], pre_release), Ok(vec![fit]), "{range}, {texts:?}");
        }
    }
}

/// Asks the crate and the library whether the text is a version, and whether it is a range or a tag.
fn reads_as_the_library(text: &str) {
    let parsed = [
        (Grammar::Npm, VersionReq::parse_from_npm(text).ok()),
        (Grammar::Normalized, VersionReq::parse_from_normalized(text).ok()),
        (Grammar::Strict, VersionReq::parse_from_specifier(text).ok()),
    ];
    for (grammar, req) in parsed {
        let is_tag = lists::best(grammar, text, [""; 0], PreRelease::Restricted).map(|best| best == Best::Tag);
        assert_eq!(req.map(|req| req.tag().is_some()), is_tag.ok(), "{text}");
    }
    let json = json::name_with_version(&format!("a@{text}"));
    let version = Version::parse_standard(text).ok();
    assert_eq!(version.map(|it| format!(r#"{{"name":"a","scope":null,"version":"{it}"}}"#)), json.ok(), "{text}");
}

// The crate takes plain versions and ranges itself. The proved calls must answer the same.
#[test]
fn plain_texts_are_those_of_the_library() {
    let starts = ["", "^", "~", "=", "^^", "v"];
    let numbers = ["0", "1", "10", "01", "999999999999999", "1000000000000000", "18446744073709551616", "x", "", "1-a"];
    for (start, count) in starts.into_iter().flat_map(|start| (0..5).map(move |count| (start, count))) {
        for choice in 0..10usize.pow(count) {
            let parts: Vec<&str> = (0..count).map(|n| numbers[choice / 10usize.pow(n) % 10]).collect();
            reads_as_the_library(&format!("{start}{}", parts.join(".")));
        }
    }
    let pieces = ["-", "-", "+", ".", ".", "a", "Z9", "0", "01", "1", "é", "*", " "];
    for seed in 0..60_000 {
        let mut next = random(seed);
        let qualifier: String = (0..next(7)).map(|_| pieces[next(pieces.len())]).collect();
        let (start, numbers) = (starts[next(3)], ["1.2.3", "1.2.3", "0.0.0", "1.2", "01.2.3"][next(5)]);
        reads_as_the_library(&format!("{start}{numbers}{qualifier}"));
    }
}

/// A range from one version to a higher one, of one version, or without an end, another one for each seed. Versions have no build, which
/// comparators leave out.
fn a_range(next: &mut impl FnMut(usize) -> usize) -> VersionRange {
    let texts = [
        "0.0.0",
        "0.0.1",
        "0.0.2",
        "0.1.0",
        "0.1.1",
        "0.2.0",
        "1.0.0-a",
        "1.0.0-a.1",
        "1.0.0",
        "1.1.0",
        "1.1.1",
        "1.2.0-0",
        "2.0.0",
        "3.0.0",
    ];
    let (one, other) = (next(texts.len()), next(texts.len()));
    let mut bound = |n: usize, kinds| match next(if one == other { 1 } else { kinds }) {
        0 | 1 => RangeBound::inclusive(version(texts[n])),
        2 | 3 => RangeBound::exclusive(version(texts[n])),
        _ => RangeBound::Unbounded,
    };
    VersionRange { start: bound(one.min(other), 4), end: bound(one.max(other), 5) }
}

/// The comparators of a range.
fn comparators(range: &VersionRange) -> String {
    let comparator = |operator: &str, bound: &RangeBound| match bound {
        RangeBound::Version(bound) if bound.kind == VersionBoundKind::Inclusive => format!("{operator}={} ", bound.version),
        RangeBound::Version(bound) => format!("{operator}{} ", bound.version),
        RangeBound::Unbounded => String::new(),
    };
    let text = comparator(">", &range.start) + &comparator("<", &range.end);
    if text.is_empty() {
        "*".to_string()
    } else {
        text.trim_end().to_string()
    }
}

// The rules of ranges that a caller builds are the crate's own. The proved calls must answer the same of the ranges that a text gives.
#[test]
fn ranges_are_those_of_the_library() {
    for seed in 0..20_000 {
        let mut next = random(seed);
        let ranges = [a_range(&mut next), a_range(&mut next)];
        let [one, other] = ranges.each_ref().map(comparators);
        let [one_req, other_req, both] =
            [one.clone(), other.clone(), format!("{one} {other}")].map(|text| VersionReq::parse_from_normalized(&text).unwrap());
        assert_eq!(one_req.range(), Some(&VersionRangeSet([ranges[0].clone()].into())), "{one}");
        assert_eq!(both.range(), Some(&VersionRangeSet([ranges[0].clamp(&ranges[1])].into())), "{one} {other}");
        assert_eq!(one_req.intersects(&other_req), ranges[0].intersects_range(&ranges[1]), "{one}, {other}");
        assert_eq!(ranges[0].to_string(), one_req.to_string_normalized());
        assert_eq!(ranges[0].clamp(&ranges[1]).to_string(), both.to_string_normalized(), "{one} {other}");
        let (texts, set) = (format!("{one} || {other}"), VersionRangeSet(ranges.to_vec().into()));
        assert_eq!(lowest::normal(Grammar::Normalized, &texts), Ok(set.to_string()));
        let third = a_range(&mut next);
        let third_req = VersionReq::parse_from_normalized(&comparators(&third)).unwrap();
        let set_req = VersionReq::parse_from_normalized(&texts).unwrap();
        assert_eq!(
            set_req.intersects(&third_req),
            set.intersects_set(&VersionRangeSet([third.clone()].into())),
            "{texts}, {third}"
        );
        assert_eq!(set_req.intersects(&third_req), set_req.inner().intersects(third_req.inner()));
        let text = version_text(seed);
        let fits = |is_match| Ok(vec![if is_match { Fit::Yes } else { Fit::No }]);
        let answer = fits(set_req.matches(&version(&text)));
        assert_eq!(answer, fits(set.satisfies(&version(&text))), "{texts}, {text}");
        assert_eq!(lists::filter(Grammar::Normalized, &texts, [&text], PreRelease::Restricted), answer, "{texts}, {text}");
        let answer = fits(ranges[0].intersects_version(&version(&text)));
        assert_eq!(lists::filter(Grammar::Normalized, &one, [&text], PreRelease::Admitted), answer, "{one}, {text}");
    }
}

// The types split names and paths off themselves. The proved calls for whole packages must find the same parts.
#[test]
fn packages_are_those_of_the_library() {
    for text in (0..60_000).map(text) {
        for (grammar, read) in [
            (Grammar::Strict, PackageReq::from_str(&text)),
            (Grammar::Npm, PackageReq::from_str_loose(&text)),
            (Grammar::Normalized, PackageReq::from_str_normalized(&text)),
        ] {
            let ours = read.as_ref().map(package_json).map_err(|error| error.message().to_string());
            assert_eq!(ours, json::package(grammar, &text), "{text:?}");
        }
        let ours = PackageNv::from_str(&text).map(|nv| nv_json(&nv)).map_err(|error| error.message);
        assert_eq!(ours, json::name_with_version(&text), "{text:?}");
    }
}

#[test]
fn references_are_those_of_the_library() {
    for text in (0..60_000).map(text) {
        let (jsr, npm) = (format!("jsr:{text}"), format!("npm:{text}"));
        let ours = JsrPackageReqReference::from_str(&jsr).ok().map(|reference| {
            let export = format!("{:?}", reference.export_name());
            reference_json(&export, "jsr", &package_json(reference.req()), reference.sub_path())
        });
        assert_eq!(ours, json::reference(&jsr).ok(), "{jsr:?}");
        let ours = NpmPackageReqReference::from_str(&npm).ok();
        let ours = ours.map(|reference| reference_json("null", "npm", &package_json(reference.req()), reference.sub_path()));
        assert_eq!(ours, json::reference(&npm).ok(), "{npm:?}");
        let ours = JsrPackageNvReference::from_str(&jsr).map_err(|error| error.message).map(|reference| {
            let export = format!("{:?}", reference.export_name());
            reference_json(&export, "jsr", &nv_json(reference.nv()), reference.sub_path())
        });
        assert_eq!(ours, json::version_reference(&jsr), "{jsr:?}");
        let ours = JsrDepPackageReq::from_str(&npm).ok().map(|dependency| {
            let package = package_json(&dependency.req);
            format!(r#"{{"kind":"npm","normal":"{}","package":{package}}}"#, dependency.to_string_normalized())
        });
        assert_eq!(ours, json::dependency(Grammar::Strict, &npm).ok(), "{npm:?}");
    }
}

// The crate names exports itself, and the proved call for references must name them alike.
#[test]
fn export_names_are_those_of_the_library() {
    let pieces = ["/", "/", ".", ".", "./", "/.", "a", "mod.ts", "é", " "];
    for seed in 0..60_000 {
        let mut next = random(seed);
        let path: String = (0..next(7)).map(|_| pieces[next(pieces.len())]).collect();
        let json = json::reference(&format!("jsr:@a/b@1/{path}")).unwrap();
        let export = format!(r#"{{"export":{:?},"#, normalized_export_name(Some(&path)));
        assert!(json.starts_with(&export), "{path:?}: {json}");
    }
    assert_eq!(normalized_export_name(None), ".");
}

#[test]
fn ranges() {
    let from = |start: &str, kind, end: &str| VersionRange {
        start: RangeBound::inclusive(version(start)),
        end: RangeBound::version(kind, version(end)),
    };
    let caret = from("1.2.3", VersionBoundKind::Exclusive, "2.0.0");
    assert_eq!(npm("^1.2.3").range(), Some(&VersionRangeSet([caret.clone()].into())));
    assert!(caret.satisfies(&version("1.3.0")) && !caret.satisfies(&version("1.3.0-a")));
    assert!(caret.intersects_range(&VersionRange::all()) && VersionRange::none().is_none());
    assert_eq!(caret.clamp(&from("1.0.0", VersionBoundKind::Inclusive, "1.5.0")).to_string(), ">=1.2.3 <=1.5.0");
    assert_eq!(VersionRangeSet(CowVec::new()).to_string(), "<0.0.0");
    let req = VersionReq::from_raw_text_and_inner("mine".into(), RangeSetOrTag::RangeSet(VersionRangeSet([caret].into())));
    assert_eq!((req == npm("^1.2.3"), req.to_string()), (true, "mine".to_string()));
    // Builds are part of the canonical form, so bounds that differ in one aren't shortened.
    use VersionBoundKind::{Exclusive, Inclusive};
    for (kind, end, canonical) in [
        (Inclusive, "1.0.0", "1.0.0"),
        (Inclusive, "1.0.0+b", ">=1.0.0 <=1.0.0+b"),
        (Exclusive, "2.0.0", "1"),
        (Exclusive, "2.0.0+b", ">=1.0.0 <2.0.0+b"),
        (Exclusive, "2.0.0-b", ">=1.0.0 <2.0.0-b"),
    ] {
        assert_eq!(from("1.0.0", kind, end).to_string(), canonical);
    }
}

#[test]
fn beyond_the_original() {
    let common = lowest::common_version(Grammar::Npm, [">1.0.0", "<1.0.1"], PreRelease::Restricted);
    assert_eq!(common, Ok(Lowest::Nothing));
    let outside = lowest::counterexample(Grammar::Npm, ">=1.3", "^1.2", PreRelease::Restricted);
    assert_eq!(outside, Ok(Lowest::Version("2.0.0".into())));
    assert_eq!(lowest::equivalent(Grammar::Npm, "1.x", "^1.0.0", PreRelease::Restricted), Ok(Some(true)));
    let list = VersionList::parse(["1.2.0", "\n2.0.0\r\n", "foo", "1.9.9"]);
    assert_eq!(list.filter(&npm("^1.2"), PreRelease::Restricted), [Fit::Yes, Fit::No, Fit::Invalid, Fit::Yes]);
    assert_eq!(list.best(&npm("^1.2"), PreRelease::Restricted), Best::At(3));
    assert_eq!(list.lowest(&npm("^1.3"), PreRelease::Restricted), Best::At(3));
    assert_eq!(list.sort(), [0, 3, 1]);
    assert_eq!(lists::sort(["2.0.0", "1.0.0"]), Ok(vec![1, 0]));
}

#[test]
fn simplified_ranges() {
    let (range, texts) = ("1.2.0 || 1.3.0", ["1.3.0+b", "1.1.0", "\n1.2.0\r\n"]);
    let simplify = |range, versions: &[&str], pre_release| lists::simplify(Grammar::Npm, range, versions, pre_release);
    let restricted = |range, versions| simplify(range, versions, PreRelease::Restricted);
    let found = |range: &str| Ok(Simplified::Range(range.into()));
    assert_eq!(restricted(range, &texts), found(">=1.2.0"));
    let of_values = lists::simplify(Grammar::Normalized, range, texts.into_iter().map(version), PreRelease::Restricted);
    assert_eq!(of_values, found(">=1.2.0"));
    let long = [range; 20].join(" || ");
    assert_eq!(restricted(&long, &[]), found(&long));
    let pre = ["1.0.0-a", "1.2.0"];
    assert_eq!(restricted("1.0.0-a || 1.2.0", &pre), found("1.0.0-a || 1.2.0"));
    assert_eq!(simplify("1.0.0-a || 1.2.0", &pre, PreRelease::Admitted), found("*"));
    assert_eq!(restricted("latest", &texts), Ok(Simplified::Tag));
    assert_eq!(restricted("latest", &["1.2.0", "1.x", "x"]), Ok(Simplified::Invalid(1)));
    assert_eq!(restricted("^1..2", &["x"]).unwrap_err().to_string(), "Invalid range 1: Unexpected character.");
}

#[test]
fn strings() {
    let long = "a text that is longer than what fits into the string itself";
    for text in ["", "short", "exactly 22 bytes long.", "23 bytes need the heap.", long] {
        let mut string = StackString::from(text);
        assert_eq!((string.as_str(), string.len(), &string.clone()), (text, text.len(), &string));
        string.push('é');
        assert_eq!(string, format!("{text}é"));
    }
    let map = HashMap::from([(StackString::from("key"), 1)]);
    assert_eq!((map.get("key"), StackString::from("a.b.c").replace(".", "")), (Some(&1), "abc".into()));
    assert_eq!(StackString::from("é.").replace("", "-"), "-é-.-");
    assert_eq!(size_of::<StackString>(), 24);
}

#[test]
fn lists_share_their_items() {
    let mut list = CowVec::from([1, 2]);
    let copy = list.clone();
    list.push(3);
    assert_eq!((&list[..], &copy[..], format!("{list:?}").as_str()), (&[1, 2, 3][..], &[1, 2][..], "[1, 2, 3]"));
    assert_eq!((list.into_iter().sum::<i32>(), (&copy).into_iter().count()), (6, 2));
    let mut grown = CowVec::new();
    assert_eq!((&grown, grown.is_empty()), (&CowVec::from(Vec::new()), true));
    grown.push("a");
    assert_eq!((grown, size_of::<CowVec<u8>>(), size_of::<Version>()), (CowVec::from(["a"]), 8, 48));
}

// What callers may do with each type, as with those of `deno_semver`.
#[test]
fn types_are_plain() {
    fn is_plain<T: Clone + Send + Sync + Unpin + UnwindSafe + RefUnwindSafe + 'static>() {}
    is_plain::<Version>();
    is_plain::<VersionReq>();
    is_plain::<PackageReq>();
    is_plain::<NpmPackageNvReference>();
    is_plain::<VersionList>();
    is_plain::<StackString>();
    is_plain::<CowVec<StackString>>();
}

static SHARED: LazyLock<VersionReq> = LazyLock::new(|| npm("^1.2 || >=3"));

/// Values that are asked.
struct Values {
    reqs: Vec<VersionReq>,
    versions: Vec<Version>,
    list: VersionList,
}

impl Values {
    fn new() -> Values {
        let versions = ["1.3.0", "2.0.0", "3.0.0-a.1", "3.0.0+b", "3.0.0-a.1+b.2", "3.0.0", "0.0.0-0"];
        let list = VersionList::parse(versions);
        let ranges = ["^1.2 || >=3", "1 - 2.0.0-x", ">=3.0.0-a <3.0.0 || ~1.3", "*", "^1.2.0 || >=3.0.0"];
        Values { reqs: ranges.map(npm).into(), versions: versions.map(version).into(), list }
    }

    /// The answers to each question about these values, each two of them, and one and itself.
    fn ask(&self) -> String {
        let mut answers = Vec::new();
        for req in &self.reqs {
            let (filtered, best) = (self.list.filter(req, PreRelease::Admitted), self.list.best(req, PreRelease::Restricted));
            answers.push(format!("{req} {} {filtered:?} {best:?} {}", req.to_string_normalized(), req.inner()));
            for pre_release in [PreRelease::Restricted, PreRelease::Admitted] {
                answers.extend(self.versions.iter().map(|version| req.matches_with(version, pre_release).to_string()));
            }
            answers.extend(self.reqs.iter().map(|other| format!("{} {}", req.intersects(other), req == other)));
        }
        for one in &self.versions {
            answers.push(format!("{one} {:?} {:?}", one.pre, one.build));
            answers.extend(
                self.versions.iter().map(|two| format!("{:?} {:?} {}", one.cmp(two), one.cmp_precedence(two), one == two)),
            );
        }
        answers.push(format!("{:?} {}", self.list.sort(), SHARED.intersects(&WILDCARD_VERSION_REQ)));
        answers.join("\n")
    }
}

// Eight threads ask the same values at once, with a stack of 64 KiB: first values of which nothing was asked before, and then copies.
#[test]
fn threads_ask_the_same_values() {
    let wanted = Values::new().ask();
    assert_eq!(wanted.lines().count(), 5 * (1 + 2 * 7 + 5) + 7 * (1 + 7) + 1);
    for _ in 0..50 {
        let (values, start) = (Values::new(), Barrier::new(8));
        thread::scope(|scope| {
            for _ in 0..8 {
                let ask = || {
                    start.wait();
                    assert_eq!(values.ask(), wanted);
                    let Values { reqs, versions, list } = &values;
                    let copies = Values { reqs: reqs.clone(), versions: versions.clone(), list: list.clone() };
                    (0..10).for_each(|_| assert_eq!(copies.ask(), wanted));
                };
                thread::Builder::new().stack_size(64 << 10).spawn_scoped(scope, ask).unwrap();
            }
        });
    }
}

// What is left where a value is taken away, and a copy of a value that is gone, answer as others do.
#[test]
fn no_value_is_empty() {
    let mut rc = version("1.2.3-rc.1");
    assert!(npm("1.2.3-rc.1").matches(&rc));
    let (copy, taken) = (rc.clone(), mem::take(&mut rc));
    assert_eq!((rc.to_string(), npm("0.0.0").matches(&rc), &taken), ("0.0.0".into(), true, &copy));
    drop(taken);
    assert!(npm("1.2.3-rc.1").matches(&copy) && copy < version("1.2.3"));
    let kept = { npm("^1").clone() };
    assert!(kept.matches(&version("1.0.0")) && kept.intersects(&kept));
}

#[test]
fn values_are_sent() {
    let (req, copy) = (npm("^1.2 || >=3"), npm("1"));
    let matching = thread::spawn(move || (req.matches(&version("v1.3.0")), req)).join().unwrap();
    assert!(matching.0 && matching.1.intersects(&copy));
    let made_elsewhere = thread::spawn(|| (npm("^1"), version("1.0.0"))).join().unwrap();
    assert!(made_elsewhere.0.matches(&made_elsewhere.1) && made_elsewhere.0.clone().matches(&made_elsewhere.1.clone()));
}
