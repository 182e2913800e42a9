//! Asks the crate each row of the project's table (crates/conformance/README.md) that concerns it, and those of `ranges.rows`, with the feature
//! `serde`, which reads the rows.
#![cfg(feature = "serde")]

use deno_semver_proved::jsr::{
    normalized_export_name, JsrDepPackageReq, JsrDepPackageReqParseError, JsrPackageNvReference, JsrPackageReqReference,
};
use deno_semver_proved::lowest::{self, Lowest};
use deno_semver_proved::npm::{is_valid_npm_tag, NpmPackageNvReference, NpmPackageReqReference};
use deno_semver_proved::package::{PackageNv, PackageReq, PackageReqPartsParseError, PackageReqReferenceParseError};
use deno_semver_proved::{
    Grammar, Partial, PreRelease, RangeBound, StackString, Version, VersionBoundKind, VersionParts, VersionRange,
    VersionRangeSet, VersionReq, XRange,
};
use serde::de::DeserializeOwned;
use serde::Serialize;
use std::cmp::Ordering;
use std::collections::BTreeMap;

type Answer = Vec<Option<String>>;

fn answer(fields: &[&str]) -> Option<Answer> {
    Some(fields.iter().map(|field| Some(field.to_string())).collect())
}

fn yes_or_no(yes: bool) -> Option<Answer> {
    answer(&[if yes { "yes" } else { "no" }])
}

fn ordering(order: Ordering) -> Option<Answer> {
    answer(&[["less", "equal", "greater"][(order as i8 + 1) as usize]])
}

fn grammar(name: &str) -> Grammar {
    match name {
        "npm" => Grammar::Npm,
        "normal" => Grammar::Normalized,
        _ => Grammar::Strict,
    }
}

fn pre_release(name: &str) -> PreRelease {
    if name == "admitted" {
        PreRelease::Admitted
    } else {
        PreRelease::Restricted
    }
}

/// A requirement, or the message of its error.
fn requirement(grammar: &str, text: &str) -> Result<VersionReq, String> {
    match grammar {
        "npm" => VersionReq::parse_from_npm(text).map_err(|error| error.message().to_string()),
        "normal" => VersionReq::parse_from_normalized(text).map_err(|error| error.message().to_string()),
        _ => VersionReq::parse_from_specifier(text).map_err(|error| error.message().to_string()),
    }
}

fn version(text: &str) -> Version {
    Version::parse_standard(text).unwrap()
}

/// A bound as a comparator.
fn bound(text: &str) -> RangeBound {
    if text == "*" {
        return RangeBound::Unbounded;
    }
    let version_text = text.trim_start_matches(['<', '>', '=']);
    let kind = if text.contains('=') { VersionBoundKind::Inclusive } else { VersionBoundKind::Exclusive };
    RangeBound::version(kind, version(version_text))
}

/// A range as comparators.
fn range(text: &str) -> VersionRange {
    let find = |operator| text.split(' ').find(|text| text.starts_with(operator)).map_or(RangeBound::Unbounded, bound);
    VersionRange { start: find('>'), end: find('<') }
}

fn set(text: &str) -> VersionRangeSet {
    VersionRangeSet(text.split(" || ").filter(|text| !text.is_empty()).map(range).collect())
}

/// A bound as a comparator, which begins with this operator.
fn comparator(operator: &str, bound: &RangeBound) -> Option<String> {
    match bound {
        RangeBound::Unbounded => None,
        RangeBound::Version(bound) => {
            Some(format!("{operator}{}{}", if bound.kind == VersionBoundKind::Inclusive { "=" } else { "" }, bound.version))
        }
    }
}

fn comparators(range: &VersionRange) -> Option<Answer> {
    let bounds: Vec<String> = comparator(">", &range.start).into_iter().chain(comparator("<", &range.end)).collect();
    answer(&[if bounds.is_empty() { "*".to_string() } else { bounds.join(" ") }.as_str()])
}

fn kind(error: &PackageReqPartsParseError) -> &'static str {
    match error {
        PackageReqPartsParseError::NoPackageName => "NoPackageName",
        PackageReqPartsParseError::InvalidPackageName => "InvalidPackageName",
        PackageReqPartsParseError::MissingAtSymbol => "MissingAtSymbol",
        PackageReqPartsParseError::SpecifierVersionReq(_) => "SpecifierVersionReq",
        PackageReqPartsParseError::NpmVersionReq(_) => "NpmVersionReq",
        PackageReqPartsParseError::NormalizedVersionReq(_) => "NormalizedVersionReq",
    }
}

fn fits(grammar: &str, text: &str, version_text: &str, pre: PreRelease) -> Option<Answer> {
    let req = match requirement(grammar, text) {
        Ok(req) => req,
        Err(message) => return answer(&["rejected", &message]),
    };
    match (req.range(), Version::parse_standard(version_text)) {
        (_, Err(error)) => answer(&["rejected", error.message()]),
        (None, _) => answer(&["tag", req.tag()?]),
        (Some(ranges), Ok(version)) => {
            let fits = req.matches_with(&version, pre);
            assert!(pre == PreRelease::Admitted || ranges.satisfies(&version) == fits && req.matches(&version) == fits);
            yes_or_no(fits)
        }
    }
}

fn normal(grammar: &str, text: &str) -> Option<Answer> {
    match requirement(grammar, text) {
        Ok(req) => {
            assert_eq!(req.inner().to_string(), req.to_string_normalized());
            answer(&[if req.tag().is_some() { "tag" } else { "ranges" }, &req.to_string_normalized()])
        }
        Err(message) => answer(&["rejected", &message]),
    }
}

fn package(grammar: &str, text: &str) -> Option<Answer> {
    let parsed = match grammar {
        "strict" => PackageReq::from_str(text),
        "loose" => PackageReq::from_str_loose(text),
        _ => PackageReq::from_str_normalized(text),
    };
    match parsed {
        Ok(req) => answer(&["read", &req.name, req.version_req.version_text(), &req.to_string_normalized(), &req.to_string()]),
        Err(error) => answer(&["rejected", kind(&error.source)]),
    }
}

fn dependency(grammar: &str, text: &str) -> Option<Answer> {
    let parsed = match grammar {
        "strict" => JsrDepPackageReq::from_str(text),
        "loose" => JsrDepPackageReq::from_str_loose(text),
        _ => JsrDepPackageReq::from_str_normalized(text),
    };
    match parsed {
        Ok(dependency) => {
            let (scheme, req) = (dependency.kind.scheme_with_colon().trim_end_matches(':'), &dependency.req);
            let (normal, displayed) = (dependency.to_string_normalized(), dependency.to_string());
            answer(&["read", scheme, &req.name, req.version_req.version_text(), &normal, &displayed])
        }
        Err(JsrDepPackageReqParseError::NotExpectedScheme(scheme)) => answer(&["rejected", "NotExpectedScheme", &scheme]),
        Err(JsrDepPackageReqParseError::PackageReqParse(error)) => answer(&["rejected", kind(&error.source)]),
    }
}

fn name_version(text: &str) -> Option<Answer> {
    let Ok(nv) = PackageNv::from_str(text).map_err(|error| error.message) else {
        return answer(&["rejected", &PackageNv::from_str(text).unwrap_err().message]);
    };
    let fields =
        [nv.name.to_string(), nv.version.to_string(), nv.to_string(), nv.clone().into_req().to_string_normalized().into_string()];
    let [name, version, displayed, normal] = fields.map(Some);
    Some(vec![Some("read".into()), name, version, nv.scope().map(String::from), displayed, normal])
}

/// The answer of a reference: its name, its version or requirement, its path, how it is displayed, and its export.
fn read(name: &str, version: String, path: Option<&str>, displayed: String, export: Option<String>) -> Option<Answer> {
    Some(vec![Some("read".into()), Some(name.into()), Some(version), path.map(String::from), Some(displayed), export])
}

fn reference(registry: &str, text: &str) -> Option<Answer> {
    let (parsed, export) = match registry {
        "jsr" => {
            let parsed = JsrPackageReqReference::from_str(text);
            let export = parsed.as_ref().ok().map(|reference| reference.export_name().into_owned());
            (parsed.map(|reference| (reference.to_string(), reference.into_inner())), export)
        }
        _ => (NpmPackageReqReference::from_str(text).map(|reference| (reference.to_string(), reference.into_inner())), None),
    };
    match parsed {
        Ok((displayed, inner)) => {
            read(&inner.req.name, inner.req.version_req.to_string(), inner.sub_path.as_deref(), displayed, export)
        }
        Err(PackageReqReferenceParseError::NotExpectedScheme(_)) => answer(&["rejected", "NotExpectedScheme"]),
        Err(PackageReqReferenceParseError::Invalid(error)) => answer(&["rejected", kind(&error.source)]),
        Err(PackageReqReferenceParseError::InvalidPathWithVersion(error)) => {
            answer(&["rejected", "InvalidPathWithVersion", &error.current, &error.suggested])
        }
    }
}

fn version_reference(registry: &str, text: &str) -> Option<Answer> {
    let (parsed, export) = match registry {
        "jsr" => {
            let parsed = JsrPackageNvReference::from_str(text);
            let export = parsed.as_ref().ok().map(|reference| reference.export_name().into_owned());
            (parsed.map(|reference| (reference.to_string(), reference.into_inner())), export)
        }
        _ => (NpmPackageNvReference::from_str(text).map(|reference| (reference.to_string(), reference.into_inner())), None),
    };
    match parsed {
        Ok((displayed, inner)) => {
            read(&inner.nv.name, inner.nv.version.to_string(), inner.sub_path.as_deref(), displayed, export)
        }
        Err(error) => answer(&["rejected", &error.message]),
    }
}

/// The JSON of a value read from JSON, with members in order.
fn json_of<T: Serialize + DeserializeOwned>(json: &str) -> Option<Answer> {
    match serde_json::from_str::<T>(json) {
        Ok(value) => answer(&["read", &serde_json::to_value(&value).unwrap().to_string()]),
        Err(_) => answer(&["rejected"]),
    }
}

fn json(name: &str, json: &str) -> Option<Answer> {
    match name {
        "Version" => json_of::<Version>(json),
        "PackageNv" => json_of::<PackageNv>(json),
        "JsrPackageNvReference" => json_of::<JsrPackageNvReference>(json),
        "NpmPackageNvReference" => json_of::<NpmPackageNvReference>(json),
        "PackageReq" => json_of::<PackageReq>(json),
        "JsrDepPackageReq" => json_of::<JsrDepPackageReq>(json),
        "RangeSetOrTag" => json_of::<deno_semver_proved::RangeSetOrTag>(json),
        "VersionReq" => json_of::<VersionReq>(json),
        "VersionRangeSet" => json_of::<VersionRangeSet>(json),
        "VersionRange" => json_of::<VersionRange>(json),
        "RangeBound" => json_of::<RangeBound>(json),
        "SmallStackString" | "StackString" => json_of::<StackString>(json),
        _ => None,
    }
}

fn order_of(kind: &str, one: &str, other: &str) -> Option<Answer> {
    fn order<T: Ord, E>(parse: impl Fn(&str) -> Result<T, E>, one: &str, other: &str) -> Option<Answer> {
        ordering(parse(one).ok()?.cmp(&parse(other).ok()?))
    }
    match kind {
        "text" => ordering(StackString::from(one).cmp(&other.into())),
        "version" => order(Version::parse_standard, one, other),
        "package" => order(PackageReq::from_str_loose, one, other),
        "dependency" => order(JsrDepPackageReq::from_str_loose, one, other),
        "name-version" => order(PackageNv::from_str, one, other),
        "jsr-version" => order(JsrPackageNvReference::from_str, one, other),
        "npm-version" => order(NpmPackageNvReference::from_str, one, other),
        _ => None,
    }
}

/// A partial version, whose missing parts are wildcards.
fn partial(text: &str) -> Partial {
    let end = text.find(['-', '+']).unwrap_or(text.len());
    let (numbers, qualifier) = text.split_at(end);
    let mut numbers = numbers.split('.').map(|number| number.parse().map_or(XRange::Wildcard, XRange::Val));
    let mut number = || numbers.next().unwrap_or(XRange::Wildcard);
    let VersionParts { pre, build, .. } = (*version(&format!("0.0.0{qualifier}"))).clone();
    Partial { major: number(), minor: number(), patch: number(), pre, build }
}

/// The range that a partial version means, or none if a bound is too large, which panics.
fn partial_range(call: &str, text: &str) -> Option<Answer> {
    use VersionBoundKind::{Exclusive, Inclusive};
    let partial = partial(text);
    let range = std::panic::catch_unwind(|| match call {
        "tilde" => partial.as_tilde_version_range(),
        "caret" => partial.as_caret_version_range(),
        "equal" => partial.as_equal_range(),
        "from-inclusive" => partial.as_greater_range(Inclusive),
        "from-exclusive" => partial.as_greater_range(Exclusive),
        ">=" => partial.as_greater_than(Inclusive),
        ">" => partial.as_greater_than(Exclusive),
        "<=" => partial.as_less_than(Inclusive),
        "<" => partial.as_less_than(Exclusive),
        "lower" => VersionRange { start: partial.as_lower_bound(), end: RangeBound::Unbounded },
        _ => VersionRange { start: RangeBound::Unbounded, end: partial.as_upper_bound() },
    });
    match range {
        Ok(range) => comparators(&range),
        Err(_) => answer(&["rejected", "Version bound is too large."]),
    }
}

fn lowest_of(lowest: Lowest) -> Option<Answer> {
    match lowest {
        Lowest::Nothing => answer(&["none"]),
        Lowest::Version(text) => answer(&[&text]),
        Lowest::Tag => answer(&["tag"]),
    }
}

/// Asks a row about ranges; none if the crate has no call for it.
fn ask_ranges(question: &[&str]) -> Option<Answer> {
    match *question {
        ["min-version", name, pre, text] => lowest_of(lowest::min_version(grammar(name), text, pre_release(pre)).ok()?),
        ["common-version", name, pre, one, other] => {
            lowest_of(lowest::common_version(grammar(name), [one, other], pre_release(pre)).ok()?)
        }
        ["version-outside", name, pre, one, other] => {
            lowest_of(lowest::counterexample(grammar(name), one, other, pre_release(pre)).ok()?)
        }
        ["is-equivalent", name, pre, one, other] => match lowest::equivalent(grammar(name), one, other, pre_release(pre)).ok()? {
            Some(same) => yes_or_no(same),
            None => answer(&["tag"]),
        },
        ["satisfies", text, version_text] => yes_or_no(range(text).satisfies(&version(version_text))),
        ["set-satisfies", text, version_text] => yes_or_no(set(text).satisfies(&version(version_text))),
        ["is-none", text] => yes_or_no(range(text).is_none()),
        ["intersects-version", text, version_text] => yes_or_no(range(text).intersects_version(&version(version_text))),
        ["intersects-range", one, other] => yes_or_no(range(one).intersects_range(&range(other))),
        ["intersects-set", one, other] => yes_or_no(set(one).intersects_set(&set(other))),
        ["admits", start, text] => yes_or_no(bound(start).has_pre_with_exact_major_minor_patch(&version(text))),
        ["partial", call, text] => partial_range(call, text),
        ["clamp-start", one, other] => answer(&[&comparator(">", &bound(one).clamp_start(&bound(other))).unwrap_or("*".into())]),
        ["clamp-end", one, other] => answer(&[&comparator("<", &bound(one).clamp_end(&bound(other))).unwrap_or("*".into())]),
        ["clamp", one, other] => comparators(&range(one).clamp(&range(other))),
        _ => None,
    }
}

/// Asks a row; none if the crate has no call for it.
fn ask(question: &[Option<String>]) -> Option<Answer> {
    let fields: Vec<&str> = question.iter().map(|field| field.as_deref().unwrap_or_default()).collect();
    match fields[..] {
        ["fits", grammar, range, version] => fits(grammar, range, version, PreRelease::Restricted),
        ["fits", grammar, range, version, pre] => fits(grammar, range, version, pre_release(pre)),
        ["normal", grammar, text] => normal(grammar, text),
        ["same-requirement", grammar, one, other] => {
            yes_or_no(requirement(grammar, one).ok()? == requirement(grammar, other).ok()?)
        }
        ["overlap", grammar, one, other] => {
            yes_or_no(requirement(grammar, one).ok()?.intersects(&requirement(grammar, other).ok()?))
        }
        ["version", text] => match Version::parse_standard(text) {
            Ok(version) => {
                assert_eq!(Version::from_parts((*version).clone()).as_ref(), Ok(&version));
                answer(&["read", &version.to_string()])
            }
            Err(error) => answer(&["rejected", error.message()]),
        },
        ["precedence", one, other] => ordering(version(one).cmp_precedence(&version(other))),
        ["pinned", one, other] => {
            let req = version(one).into_req();
            let matches = if req.matches(&version(other)) { "yes" } else { "no" };
            answer(&[req.version_text(), &req.to_string_normalized(), matches])
        }
        ["tag", text] => yes_or_no(is_valid_npm_tag(text)),
        ["order-of", kind, one, other] => order_of(kind, one, other),
        ["package", grammar, text] => package(grammar, text),
        ["dependency", grammar, text] => dependency(grammar, text),
        ["name-version", text] => name_version(text),
        ["reference", registry, text] => reference(registry, text),
        ["version-reference", registry, text] => version_reference(registry, text),
        ["export", _] => answer(&[&normalized_export_name(question[1].as_deref())]),
        // A key that stands twice is an error here, and an array is read in place of an object, as in `deno_semver`.
        ["json", "VersionRange", text] if text.matches("start").count() > 1 => None,
        ["json", "VersionRange" | "VersionReq", text] if text.starts_with('[') => None,
        ["json", "RangeBound", r#"{"Unbounded":null}"#] => None,
        ["json", name, text] => json(name, text),
        _ => ask_ranges(&fields),
    }
}

/// Whether an answer is the one of the table, which may leave open why a text is rejected. The crate has no part of the text to show.
fn is_right(answer: &Answer, wanted: &Answer) -> bool {
    let is_rejected = wanted[0].as_deref() == Some("rejected");
    let fields = if is_rejected { answer.len().min(wanted.len()) } else { wanted.len() };
    answer.get(..fields) == wanted.get(..fields) && (is_rejected || answer.len() == wanted.len())
}

#[test]
fn table() {
    let read = |path| std::fs::read_to_string(path).expect("a table");
    let table = read(concat!(env!("CARGO_MANIFEST_DIR"), "/../../crates/conformance/stdin"))
        + &read(concat!(env!("CARGO_MANIFEST_DIR"), "/tests/ranges.rows"));
    let (mut asked, mut differ) = (BTreeMap::<String, usize>::new(), 0);
    for line in table.lines().filter(|line| line.starts_with('[')) {
        let [question, wanted]: [Answer; 2] = serde_json::from_str(line).expect("a row");
        let Some(answer) = ask(&question) else { continue };
        *asked.entry(question[0].clone().unwrap_or_default()).or_default() += 1;
        if !is_right(&answer, &wanted) {
            println!("{question:?}: {answer:?}, and not {wanted:?}");
            differ += 1;
        }
    }
    println!("{} rows: {asked:?}", asked.values().sum::<usize>());
    assert!(differ == 0 && asked.values().sum::<usize>() > 5_000, "{differ} rows differ of {asked:?}");
}
