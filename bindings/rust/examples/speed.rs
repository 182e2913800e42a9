//! The time of each call in nanoseconds: the lowest of 15 passes over lists of 1,000. It uses only what the crate `deno_semver` has too, so
//! that `speed.py` can build it over both.

use deno_semver_proved::jsr::{normalized_export_name, JsrDepPackageReq};
use deno_semver_proved::npm::{NpmPackageNvReference, NpmPackageReqReference};
use deno_semver_proved::package::{PackageNv, PackageReq};
use deno_semver_proved::{Version, VersionReq};
use std::hint::black_box;
use std::time::Instant;

const COUNT: usize = 1_000;

/// The time of the fastest pass, divided by its number of calls.
fn time(name: &str, count: usize, mut pass: impl FnMut()) {
    let mut once = || {
        let start = Instant::now();
        pass();
        start.elapsed().as_nanos()
    };
    let lowest = (0..15).map(|_| once()).min().unwrap_or_default();
    println!("{name}\t{:.1}", lowest as f64 / count as f64);
}

/// The time of a call with each value.
fn each<T, R>(name: &str, values: &[T], call: impl Fn(&T) -> R) {
    time(name, values.len(), || {
        for value in values {
            black_box(call(black_box(value)));
        }
    });
}

/// A thousand strings, the same ones on every run; 1 of 7 versions is a pre-release.
fn texts(text: impl Fn(usize, String) -> String) -> Vec<String> {
    let version = |n: usize| {
        let pre = if n % 7 == 0 { format!("-beta.{}", n % 5) } else { String::new() };
        format!("{}.{}.{}{pre}", n % 11, n % 31, n % 101)
    };
    (0..COUNT).map(|n| text(n, version(n.wrapping_mul(7919)))).collect()
}

fn range(n: usize, version: String) -> String {
    match n % 10 {
        0 => format!("~{version}"),
        1 => version,
        2 => format!(">={version} <{}.0.0", n % 11 + 12),
        3 => format!("^{version} || ^{}.0.0", n % 11 + 12),
        4 => format!("{}.x", n % 11),
        _ => format!("^{version}"),
    }
}

fn strict(n: usize, version: String) -> String {
    match n % 5 {
        0 => version,
        1 => format!("~{version}"),
        2 => format!("{}", n % 11),
        _ => format!("^{version}"),
    }
}

fn name(n: usize) -> String {
    let name = ["lodash", "chalk", "typescript-eslint", "react-dom", "left-pad"][n % 5];
    if n % 3 == 0 {
        format!("@scope{}/{name}", n % 4)
    } else {
        name.to_string()
    }
}

fn versions() {
    let texts = texts(|_, version| version);
    let versions: Vec<Version> = texts.iter().map(|text| Version::parse_standard(text).unwrap()).collect();
    let req = VersionReq::parse_from_npm("^1.2").unwrap();
    each("parse a version", &texts, |text| Version::parse_standard(text));
    each("parse a version and match it once", &texts, |text| req.matches(&Version::parse_standard(text).unwrap()));
    each("match, both parsed, one range", &versions, |version| req.matches(version));
    let alternatives = VersionReq::parse_from_npm(">=1.2 <2 || 3.x || ~5.6.7").unwrap();
    each("match, both parsed, three alternatives", &versions, |version| alternatives.matches(version));
    each("display a version", &versions, Version::to_string);
    each("copy a version", &versions, Version::clone);
    let pairs: Vec<&[Version]> = versions.windows(2).collect();
    each("compare two versions", &pairs, |pair| pair[0].cmp(&pair[1]));
    time("sort 1,000 versions, per version", COUNT, || {
        let mut list = versions.clone();
        list.sort();
        black_box(list);
    });
}

/// What is slower where each version is a pre-release.
fn pre_releases() {
    let texts: Vec<String> = texts(|n, version| format!("{}-rc.{}", version.split('-').next().unwrap_or(""), n % 9));
    let versions: Vec<Version> = texts.iter().map(|text| Version::parse_standard(text).unwrap()).collect();
    let req = VersionReq::parse_from_npm("^1.2").unwrap();
    each("pre-releases alone: parse", &texts, |text| Version::parse_standard(text));
    each("pre-releases alone: match", &versions, |version| req.matches(version));
    each("pre-releases alone: parse and match once", &texts, |text| req.matches(&Version::parse_standard(text).unwrap()));
    let of_pre = VersionReq::parse_from_npm(">=1.2.3-beta <2 || ^4.0.0-rc.1").unwrap();
    each("pre-releases alone: match a range of them", &versions, |version| of_pre.matches(version));
    each("pre-releases alone: parse and match a range of them once", &texts, |text| {
        of_pre.matches(&Version::parse_standard(text).unwrap())
    });
    time("pre-releases alone: sort", COUNT, || {
        let mut list = versions.clone();
        list.sort();
        black_box(list);
    });
}

fn requirements() {
    let texts = texts(range);
    let reqs: Vec<VersionReq> = texts.iter().map(|text| VersionReq::parse_from_npm(text).unwrap()).collect();
    each("parse an npm range", &texts, |text| VersionReq::parse_from_npm(text));
    let normalized: Vec<String> = reqs.iter().map(VersionReq::to_string_normalized).collect();
    each("parse a normalized range", &normalized, |text| VersionReq::parse_from_normalized(text));
    let specifiers = self::texts(strict);
    each("parse a strict range", &specifiers, |text| VersionReq::parse_from_specifier(text));
    each("canonical form of a range", &reqs, VersionReq::to_string_normalized);
    let pairs: Vec<&[VersionReq]> = reqs.windows(2).collect();
    each("whether two ranges overlap", &pairs, |pair| pair[0].intersects(&pair[1]));
    each("whether two ranges are equal", &pairs, |pair| pair[0] == pair[1]);
    each("copy a range", &reqs, VersionReq::clone);
}

fn packages() {
    let loose = texts(|n, version| format!("{}@{}", name(n), range(n, version)));
    each("parse a package, npm's grammar", &loose, |text| PackageReq::from_str_loose(text));
    let stored: Vec<PackageReq> = loose.iter().map(|text| PackageReq::from_str_loose(text).unwrap()).collect();
    each("canonical form of a package", &stored, PackageReq::to_string_normalized);
    let pairs: Vec<&[PackageReq]> = stored.windows(2).collect();
    each("order of two packages", &pairs, |pair| pair[0].cmp(&pair[1]));
    let dependencies = texts(|n, version| format!("npm:{}@{}", name(n), strict(n, version)));
    each("parse a dependency", &dependencies, |text| JsrDepPackageReq::from_str(text));
    let references = texts(|n, version| format!("npm:{}@{}/mod.ts", name(n), strict(n, version)));
    each("parse a reference", &references, |text| NpmPackageReqReference::from_str(text));
    let names = texts(|n, version| format!("{}@{version}", name(n)));
    each("parse a name with a version", &names, |text| PackageNv::from_str(text));
    let pinned = texts(|n, version| format!("npm:{}@{version}/mod.ts", name(n)));
    each("parse a reference to a version", &pinned, |text| NpmPackageNvReference::from_str(text));
    each("name of an export", &["mod.ts", "./mod.ts", "/a/b/", "."], |path| normalized_export_name(Some(path)).len());
}

fn main() {
    versions();
    pre_releases();
    requirements();
    packages();
}
