//! Asks each question of the flat table QUESTIONS (flatten.py) by every call of the crate that it concerns. It fails where an answer
//! differs or a block of the library is still alive at the end.

use deno_semver_proved::explain::{explain, Alternative, Comparator, LeftOut, PreReleases};
use deno_semver_proved::jsr::normalized_export_name;
use deno_semver_proved::lists::{self, Best, Fit, Simplified, VersionList};
use deno_semver_proved::lowest::{self, Lowest};
use deno_semver_proved::npm::is_valid_npm_tag;
use deno_semver_proved::package::{json, PackageReq};
use deno_semver_proved::{
    Base, Coerced, Grammar, InvalidRange, Place, PreRelease, RangeBound, RangeSetOrTag, ReleaseType, Version, VersionBoundKind,
    VersionRange, VersionReq, WILDCARD_VERSION_REQ,
};
use std::error::Error;
use std::ffi::c_long;
use std::hash::{DefaultHasher, Hash, Hasher};
use std::process::ExitCode;
use std::thread;

extern "C" {
    fn heap_alive() -> c_long;
}

const US: &str = "\u{1f}";

/// Answers as the table has them, or that of an error.
type Answers = Result<Vec<String>, String>;

fn answer(fields: &[&str]) -> Answers {
    Ok(vec![fields.join(US)])
}

fn yes_or_no(yes: bool) -> String {
    if yes { "yes" } else { "no" }.to_string()
}

fn hash(value: &impl Hash) -> u64 {
    let mut hasher = DefaultHasher::new();
    value.hash(&mut hasher);
    hasher.finish()
}

/// The answer of an error, which is displayed as `line` and has its message in its last cause.
fn invalid(kind: &str, line: &str, message: &str, error: &dyn Error) -> String {
    assert_eq!(error.to_string(), line);
    let cause = std::iter::successors(Some(error), |error| (*error).source()).last().unwrap().to_string();
    assert_eq!(cause.lines().next(), message.lines().next());
    ["invalid ", kind, US, message].concat()
}

fn invalid_range(error: InvalidRange) -> String {
    assert_eq!(error.to_string(), format!("Invalid range {}: {}", error.place + 1, error.message));
    ["invalid range", &error.message, &error.place.to_string()].join(US)
}

/// A value and its copy.
fn both<T: Clone>(value: T) -> [T; 2] {
    [value.clone(), value]
}

fn grammar(name: &str) -> Grammar {
    match name {
        "npm" => Grammar::Npm,
        "normalized" => Grammar::Normalized,
        _ => Grammar::Strict,
    }
}

fn requirements(grammar: &str, text: &str) -> Result<[VersionReq; 2], String> {
    match grammar {
        "npm" => VersionReq::parse_from_npm(text).map_err(|e| invalid("range", "Invalid version requirement", e.message(), &e)),
        "normalized" => VersionReq::parse_from_normalized(text)
            .map_err(|e| invalid("range", "Invalid normalized version requirement", e.message(), &e)),
        _ => VersionReq::parse_from_specifier(text)
            .map_err(|e| invalid("range", "Invalid specifier version requirement", e.message(), &e)),
    }
    .map(both)
}

fn versions(text: &str) -> Result<[Version; 2], String> {
    Version::parse_standard(text).map(both).map_err(|e| invalid("version", "Invalid version", e.message(), &e))
}

/// The answers about each two values, and about one and itself where they are read from the same text.
fn pairs<T>(ones: [T; 2], others: [T; 2], same: bool, ask: fn(&T, &T) -> String) -> Answers {
    let itself = same.then(|| ask(&ones[0], &ones[0]));
    Ok(ones.iter().zip(&others).map(|(one, other)| ask(one, other)).chain(itself).collect())
}

/// The answers about each requirement and a version.
fn of_version(reqs: Result<[VersionReq; 2], String>, version: &str, ask: impl Fn(&VersionReq, &Version) -> String) -> Answers {
    Ok(reqs?.iter().zip(versions(version)?).map(|(req, version)| ask(req, &version)).collect())
}

fn fits(req: &VersionReq, version: &Version, pre_release: PreRelease) -> String {
    let Some(ranges) = req.range() else {
        return "tag".to_string();
    };
    let fits = req.matches_with(version, pre_release);
    assert!(pre_release == PreRelease::Admitted || req.matches(version) == fits && ranges.satisfies(version) == fits);
    yes_or_no(fits)
}

/// Whether a version lies outside the requirement, which may be a tag.
fn lies(req: &VersionReq, ask: impl FnOnce(&VersionReq) -> bool) -> String {
    if req.tag().is_some() {
        "tag".to_string()
    } else {
        yes_or_no(ask(req))
    }
}

fn filter(grammar: Grammar, requirement: &str, versions: &str, pre_release: PreRelease) -> Answers {
    let fits = lists::filter(grammar, requirement, versions.lines(), pre_release).map_err(invalid_range)?;
    if let (Grammar::Npm, Ok(req)) = (grammar, VersionReq::parse_from_npm(requirement)) {
        let list = VersionList::parse(versions.lines());
        assert_eq!((list.filter(&req, pre_release), list.len(), list.is_empty()), (fits.clone(), fits.len(), fits.is_empty()));
    }
    if fits.first() == Some(&Fit::Tag) {
        return answer(&["tag"]);
    }
    let names = fits.iter().map(|fit| match fit {
        Fit::No => "no",
        Fit::Yes => "yes",
        Fit::Tag => "tag",
        Fit::Invalid => "invalid version",
    });
    answer(&["yes"].into_iter().chain(names).collect::<Vec<_>>())
}

fn best(best: Result<Best, InvalidRange>) -> Answers {
    match best.map_err(invalid_range)? {
        Best::Nothing => answer(&["no"]),
        Best::At(place) => answer(&["yes", &place.to_string()]),
        Best::Tag => answer(&["tag"]),
        Best::Invalid(place) => answer(&["invalid version", &place.to_string()]),
    }
}

fn simplified(simplified: Result<Simplified, InvalidRange>) -> Answers {
    match simplified.map_err(invalid_range)? {
        Simplified::Range(text) => answer(&["yes", &text]),
        Simplified::Tag => answer(&["tag"]),
        Simplified::Invalid(place) => answer(&["invalid version", &place.to_string()]),
    }
}

fn sort(versions: &str) -> Answers {
    places(lists::sort(versions.lines()).map_err(|place| format!("invalid version{US}{place}"))?)
}

fn places(places: Vec<usize>) -> Answers {
    Ok(vec![places.iter().fold("yes".to_string(), |list, place| format!("{list}{US}{place}"))])
}

/// What a held list answers about each of two requirements, as both ask it.
fn list_best(reqs: Result<[VersionReq; 2], String>, versions: &str, ask: impl Fn(&VersionList, &VersionReq) -> Best) -> Answers {
    let list = VersionList::parse(versions.lines());
    Ok(reqs?.iter().map(|req| best(Ok(ask(&list, req)))).collect::<Result<Vec<_>, _>>()?.concat())
}

/// The order with builds, with which equality and hashes agree.
fn order(one: &Version, other: &Version) -> String {
    let order = one.cmp(other);
    assert_eq!((one.partial_cmp(other), one == other, hash(one) == hash(other)), (Some(order), order.is_eq(), order.is_eq()));
    ["before", "same", "after"][(order as i8 + 1) as usize].to_string()
}

const KINDS: [&str; 8] = ["major", "minor", "patch", "premajor", "preminor", "prepatch", "prerelease", "release"];
const RELEASE_TYPES: [ReleaseType; 8] = {
    use ReleaseType::*;
    [Major, Minor, Patch, PreMajor, PreMinor, PrePatch, PreRelease, Release]
};
const BASES: [Base; 3] = [Base::Zero, Base::One, Base::Nothing];

fn place_of(name: &str, names: &[&str]) -> Option<usize> {
    names.iter().position(|it| *it == name)
}

fn difference(one: &Version, other: &Version) -> String {
    one.difference(other).map_or("none", |kind| KINDS[kind as usize]).to_string()
}

fn precedence(one: &Version, other: &Version) -> String {
    ["before", "same", "after"][(one.cmp_precedence(other) as i8 + 1) as usize].to_string()
}

/// Whether two requirements overlap, which their ranges know too.
fn overlap(one: &VersionReq, other: &VersionReq) -> String {
    assert_eq!(one.intersects(other), one.inner().intersects(other.inner()));
    yes_or_no(one.intersects(other))
}

/// Whether two requirements are equal. A tag and ranges of the same canonical form differ, and have the same hash.
fn equal(one: &VersionReq, other: &VersionReq) -> String {
    assert_eq!(hash(one) == hash(other), one.to_string_normalized() == other.to_string_normalized());
    yes_or_no(one == other)
}

/// The order of two packages of one name, with which equality agrees.
fn req_order(one: &VersionReq, other: &VersionReq) -> String {
    let [one, other] = [one, other].map(|req| PackageReq { name: "name".into(), version_req: req.clone() });
    let order = one.cmp(&other);
    assert_eq!(one == other, order.is_eq());
    ["before", "same", "after"][(order as i8 + 1) as usize].to_string()
}

fn lowest_version(found: &str, nothing: &str, lowest: Result<Lowest, InvalidRange>) -> Answers {
    match lowest.map_err(invalid_range)? {
        Lowest::Nothing => answer(&[nothing]),
        Lowest::Version(text) => answer(&[found, &text]),
        Lowest::Tag => answer(&["tag"]),
    }
}

fn equivalent(equivalent: Result<Option<bool>, InvalidRange>) -> Answers {
    let same = equivalent.map_err(invalid_range)?;
    Ok(vec![same.map_or("tag".to_string(), yes_or_no)])
}

/// The name, the requirement and its canonical form.
fn package(grammar_name: &str, text: &str) -> Answers {
    let read = match grammar_name {
        "npm" => PackageReq::from_str_loose(text),
        "normalized" => PackageReq::from_str_normalized(text),
        _ => PackageReq::from_str(text),
    };
    assert_eq!(read.as_ref().err().map(|e| e.message().to_string()), json::package(grammar(grammar_name), text).err());
    let req = read.map_err(|e| invalid("range", &format!("Invalid package requirement '{text}'"), e.message(), &e))?;
    let (requirement, canonical) = (req.version_req.version_text(), req.version_req.to_string_normalized());
    let displayed = if requirement == "*" { req.name.to_string() } else { format!("{}@{requirement}", req.name) };
    assert_eq!((req.to_string(), req.to_string_normalized().into_string()), (displayed, format!("{}@{canonical}", req.name)));
    answer(&["yes", &req.name, requirement, &canonical])
}

/// The JSON of a whole package, or the error message.
fn parts(json: Result<String, String>) -> Answers {
    json.map(|json| vec![format!("yes{US}{json}")]).map_err(|message| format!("invalid range{US}{message}"))
}

fn bound(bound: &RangeBound) -> String {
    match bound {
        RangeBound::Unbounded => "null".to_string(),
        RangeBound::Version(bound) => {
            format!(r#"{{"inclusive":{},"version":"{}"}}"#, bound.kind == VersionBoundKind::Inclusive, bound.version)
        }
    }
}

/// The bounds of the ranges, as JSON. A requirement of the same ranges and another text is equal.
fn ranges(req: &VersionReq) -> String {
    assert_eq!(VersionReq::from_raw_text_and_inner("text".into(), req.inner().clone()).to_string(), "text");
    let RangeSetOrTag::RangeSet(ranges) = req.inner() else {
        return "tag".to_string();
    };
    let range = |range: &VersionRange| format!(r#"{{"end":{},"start":{}}}"#, bound(&range.end), bound(&range.start));
    let ranges: Vec<String> = ranges.0.iter().map(range).collect();
    format!("yes{US}[{}]", ranges.join(","))
}

/// The parts of a version, as JSON, from which it is built again.
fn version_parts(version: &Version) -> String {
    assert_eq!(Version::from_parts((**version).clone()).as_ref(), Ok(version));
    let list =
        |list: &[deno_semver_proved::StackString]| list.iter().map(|text| format!("{text:?}")).collect::<Vec<_>>().join(",");
    let (build, pre) = (list(&version.build), list(&version.pre));
    let (major, minor, patch) = (version.major, version.minor, version.patch);
    format!(r#"yes{US}{{"build":[{build}],"major":"{major}","minor":"{minor}","patch":"{patch}","pre":[{pre}]}}"#)
}

/// The three numbers of a version, and whether it has neither a pre-release nor a build.
fn version_numbers(version: &Version) -> String {
    let code = yes_or_no(version.pre.is_empty() && version.build.is_empty());
    format!("{code}{US}{}{US}{}{US}{}", version.major, version.minor, version.patch)
}

/// Texts as a JSON array.
fn texts(texts: &[String]) -> String {
    format!("[{}]", texts.iter().map(|text| text_json(text)).collect::<Vec<_>>().join(","))
}

/// A text as JSON.
fn text_json(text: &str) -> String {
    format!("{text:?}")
}

fn error_json(message: &str, Place { start, end, expected }: &Place) -> String {
    format!(r#"{{"end":{end},"expected":{},"message":"{message}","start":{start}}}"#, texts(expected))
}

/// The errors of a range, as JSON: its own, or those of the alternatives that are left out. The crate has no call for those of tags.
fn range_errors(name: &str, text: &str) -> Option<Answers> {
    let error = match name {
        "npm" => VersionReq::parse_from_npm(text).err().map(|e| e.source),
        "normalized" => VersionReq::parse_from_normalized(text).err().map(|e| e.source),
        _ => VersionReq::parse_from_specifier(text).err().map(|e| e.source),
    };
    let errors: Vec<String> = match error {
        Some(error) => vec![error_json(&error.message, &error.place().expect("the place is known"))],
        None => {
            let explanation = explain(grammar(name), text, PreRelease::Restricted).expect("the range is valid")?;
            let left_out = explanation.alternatives.into_iter().filter_map(|it| it.meaning.err());
            left_out.map(|LeftOut { message, place }| error_json(&message, &place)).collect()
        }
    };
    Some(answer(&["yes", &format!("[{}]", errors.join(","))]))
}

fn comparator_json(Comparator { text, range }: &Comparator) -> String {
    format!(r#"{{"end":{},"start":{},"text":{}}}"#, bound(&range.end), bound(&range.start), text_json(text))
}

fn alternative_json(Alternative { text, meaning }: &Alternative) -> String {
    let text = text_json(text);
    let meaning = match meaning {
        Ok(meaning) => meaning,
        Err(LeftOut { message, place }) => return format!(r#"{{"error":{},"text":{text}}}"#, error_json(message, place)),
    };
    let comparators: Vec<_> = meaning.comparators.iter().map(comparator_json).collect();
    let lowest = meaning.lowest.as_ref().map_or("null".to_string(), |text| text_json(text));
    let pre_releases = match &meaning.pre_releases {
        PreReleases::All => "\"all\"".to_string(),
        PreReleases::Of(numbers) => texts(numbers),
    };
    let (end, start) = (bound(&meaning.range.end), bound(&meaning.range.start));
    let comparators = comparators.join(",");
    format!(
        r#"{{"comparators":[{comparators}],"end":{end},"lowest":{lowest},"pre-releases":{pre_releases},"start":{start},"text":{text}}}"#
    )
}

/// What a range means, as JSON.
fn explained(name: &str, range: &str, pre_release: PreRelease) -> Answers {
    let Some(explanation) = explain(grammar(name), range, pre_release).map_err(invalid_range)? else {
        return answer(&["tag"]);
    };
    let alternatives: Vec<_> = explanation.alternatives.iter().map(alternative_json).collect();
    let canonical = text_json(&explanation.canonical);
    answer(&["yes", &format!(r#"{{"alternatives":[{}],"normal":{canonical}}}"#, alternatives.join(","))])
}

/// Where a text stops being a version.
fn version_error(text: &str) -> Answers {
    let start = match Version::parse_standard(text) {
        Ok(_) => text.len(),
        Err(error) => error.source.place().expect("the place is known").start,
    };
    answer(&["yes", &start.to_string()])
}

/// The canonical form, which the ranges have as well.
fn normal(req: &VersionReq) -> String {
    assert_eq!(req.inner().to_string(), req.to_string_normalized());
    req.to_string_normalized()
}

/// The scans of a requirement.
fn scans(req: &VersionReq, pre_release: PreRelease) -> String {
    let Some(scans) = req.scans(pre_release) else {
        return "tag".to_string();
    };
    let parts = scans.iter().flat_map(|it| [if it.is_pre { "pre" } else { "release" }, &it.low, &it.high]);
    ["yes"].into_iter().chain(parts).collect::<Vec<_>>().join(US)
}

fn written<T>(values: [T; 2], text: impl Fn(&T) -> String) -> Answers {
    Ok(values.iter().map(|value| ["yes", &text(value)].join(US).trim_end_matches(US).to_string()).collect())
}

fn each<T>(values: [T; 2], answer: impl Fn(&T) -> String) -> Answers {
    Ok(values.iter().map(answer).collect())
}

/// Asks a question of ranges and lists; none where the crate has no call for it.
fn ask_lists(question: &[&str]) -> Option<Answers> {
    let flag = if question.get(2) == Some(&"admitted") { PreRelease::Admitted } else { PreRelease::Restricted };
    Some(match *question {
        ["filter", name, _, range, versions] => filter(grammar(name), range, versions, flag),
        ["best", name, _, range, versions] => best(lists::best(grammar(name), range, versions.lines(), flag)),
        ["lowest", name, _, range, versions] => best(lists::lowest(grammar(name), range, versions.lines(), flag)),
        ["simplify", name, _, range, versions] => simplified(lists::simplify(grammar(name), range, versions.lines(), flag)),
        ["sort", versions] => sort(versions),
        ["list_best", grammar, _, requirement, versions] => {
            list_best(requirements(grammar, requirement), versions, |list, req| list.best(req, flag))
        }
        ["list_lowest", grammar, _, requirement, versions] => {
            list_best(requirements(grammar, requirement), versions, |list, req| list.lowest(req, flag))
        }
        ["list_sort", versions] => places(VersionList::parse(versions.lines()).sort()),
        ["within", name, _, one, other] => lowest_version("no", "yes", lowest::counterexample(grammar(name), one, other, flag)),
        ["common", name, _, one, other] => lowest_version("yes", "no", lowest::common_version(grammar(name), [one, other], flag)),
        ["common_all", name, _, ranges] => {
            lowest_version("yes", "no", lowest::common_version(grammar(name), ranges.lines(), flag))
        }
        ["equivalent", name, _, one, other] => equivalent(lowest::equivalent(grammar(name), one, other, flag)),
        ["explain", name, _, range] => explained(name, range, flag),
        ["min_version", name, _, range] => {
            let lowest = lowest::min_version(grammar(name), range, flag);
            let held = requirements(name, range).ok().map(|reqs| reqs[0].min_version(flag));
            assert_eq!(lowest.as_ref().ok(), held.as_ref());
            lowest_version("yes", "no", lowest)
        }
        _ => return None,
    })
}

/// Asks a question; none where the crate has no call for it.
fn ask(question: &[&str]) -> Option<Answers> {
    let flag = if question.get(2) == Some(&"admitted") { PreRelease::Admitted } else { PreRelease::Restricted };
    let same = question[question.len() - 2] == question[question.len() - 1];
    let reqs = |grammar, one, other, ask| pairs(requirements(grammar, one)?, requirements(grammar, other)?, same, ask);
    Some(match *question {
        [_, "unknown", ..] => return None,
        ["fits", grammar, _, requirement, version] => {
            of_version(requirements(grammar, requirement), version, |req, version| fits(req, version, flag))
        }
        ["above", grammar, _, requirement, version] => {
            of_version(requirements(grammar, requirement), version, |req, version| lies(req, |req| version.is_above(req, flag)))
        }
        ["below", grammar, _, requirement, version] => {
            of_version(requirements(grammar, requirement), version, |req, version| lies(req, |req| version.is_below(req, flag)))
        }
        ["increment", kind, base, version, identifiers] => {
            let (kind, base) = (RELEASE_TYPES[place_of(kind, &KINDS)?], BASES[place_of(base, &["zero", "one", "nothing"])?]);
            versions(version).and_then(|all| {
                let next = |version: &Version| version.increment(kind, identifiers, base);
                all.iter()
                    .map(|it| {
                        next(it)
                            .map_or_else(|error| format!("no increment{US}{}", error.message), |next| format!("yes{US}{next}"))
                    })
                    .map(Ok)
                    .collect()
            })
        }
        ["coerce", which, parts, text] => {
            let which = [Coerced::First, Coerced::Last][place_of(which, &["first", "last"])?];
            let coerce = [Version::coerce, Version::coerce_whole][place_of(parts, &["numbers", "all"])?];
            coerce(text, which).map_or(answer(&["no"]), |version| answer(&["yes", &version.to_string()]))
        }
        ["difference", one, other] => versions(one).and_then(|one| pairs(one, versions(other)?, same, difference)),
        ["compare", one, other] => versions(one).and_then(|one| pairs(one, versions(other)?, same, precedence)),
        ["order", one, other] => versions(one).and_then(|one| pairs(one, versions(other)?, same, order)),
        ["intersects", grammar, one, other] => reqs(grammar, one, other, overlap),
        ["equal", grammar, one, other] => reqs(grammar, one, other, equal),
        ["req_order", grammar, one, other] => reqs(grammar, one, other, req_order),
        ["normal", name, text] => requirements(name, text).and_then(|all| {
            assert_eq!(lowest::normal(grammar(name), text).as_ref(), Ok(&normal(&all[0])));
            written(all, normal)
        }),
        ["text", grammar, text] => requirements(grammar, text).and_then(|all| written(all, VersionReq::to_string)),
        ["is_tag", grammar, text] => requirements(grammar, text).and_then(|all| each(all, |req| yes_or_no(req.tag().is_some()))),
        ["ranges", grammar, text] => requirements(grammar, text).and_then(|all| each(all, ranges)),
        ["version", text] => versions(text).and_then(|all| written(all, Version::to_string)),
        ["key", text] => versions(text).and_then(|all| written(all, Version::sort_key)),
        ["scans", grammar, _, text] => requirements(grammar, text).and_then(|all| each(all, |req| scans(req, flag))),
        ["errors", name, text] => return range_errors(name, text),
        ["version_error", text] => version_error(text),
        ["version_numbers", text] => versions(text).and_then(|all| each(all, version_numbers)),
        ["version_parts", text] => versions(text).and_then(|all| each(all, version_parts)),
        ["may_be_tag", text] => Ok(vec![yes_or_no(is_valid_npm_tag(text))]),
        ["package", grammar, text] => package(grammar, text),
        ["reference", text] => parts(json::reference(text)),
        ["name_with_version", text] => parts(json::name_with_version(text)),
        ["version_reference", text] => parts(json::version_reference(text)),
        ["dependency", name, text] => parts(json::dependency(grammar(name), text)),
        ["export_name", path] => answer(&["yes", &normalized_export_name(Some(path))]),
        _ => return ask_lists(question),
    })
}

/// What the crate answers where the table has this, of a question of this call.
fn wanted(call: &str, answer: &str) -> String {
    let fields: Vec<&str> = answer.split(US).collect();
    match (call, &fields[..]) {
        ("package", ["yes", _, parts @ ..]) => ["yes", &parts.join(US)].join(US),
        // These have a place and no message.
        ("best" | "lowest" | "simplify" | "sort", ["invalid version", _, place]) => ["invalid version", place].join(US),
        // These have a message and no place.
        (
            "intersects" | "equal" | "req_order" | "increment" | "difference" | "compare" | "order",
            [code @ ("invalid range" | "invalid version"), message, _],
        ) => [*code, *message].join(US),
        // These have a place even if there is one range alone.
        ("explain" | "filter" | "min_version", ["invalid range", message]) => ["invalid range", *message, "0"].join(US),
        _ => answer.to_string(),
    }
}

/// Whether each answer is the one wanted; none where the crate has no call.
fn is_right(question: &str, answer: &str) -> Option<bool> {
    let fields: Vec<&str> = question.split(US).collect();
    let wanted = wanted(fields[0], answer);
    let answers = ask(&fields)?.unwrap_or_else(|error| vec![error]);
    let right = answers.iter().all(|answer| *answer == wanted);
    if !right {
        println!("{fields:?}: {answers:?}, and not {wanted:?}");
    }
    Some(right)
}

/// How many questions were answered, and whether all answers are right.
fn ask_all() -> (usize, bool) {
    let table = std::fs::read(std::env::var("QUESTIONS").expect("QUESTIONS, a flat table")).expect("a table");
    // A row that isn't valid UTF-8 is none that a `&str` can ask.
    let rows = table.split(|byte| *byte == 0x1e).filter_map(|row| std::str::from_utf8(row).ok()?.split_once('\u{1d}'));
    let right: Vec<bool> = rows.filter_map(|(question, wanted)| is_right(question, wanted)).collect();
    (right.len(), !right.is_empty() && !right.contains(&false))
}

fn main() -> ExitCode {
    // What a program has once isn't freed: the requirement `*`.
    assert_eq!(WILDCARD_VERSION_REQ.to_string_normalized(), "*");
    let before = unsafe { heap_alive() };
    let (count, right) = thread::spawn(ask_all).join().expect("a thread");
    let lost = unsafe { heap_alive() } - before;
    println!("{count} questions; {lost} blocks are still alive");
    ExitCode::from(u8::from(!right || lost != 0))
}
