//! What this crate answers without the library: for speed, or since the library has no call for ranges that a caller builds. README.md
//! names the test that compares each with the library.

use crate::calls::ordering;
use crate::error::display;
use crate::externs::{semver_version_compare, semver_version_order};
use crate::package::{PackageKind, PackageReqPartsParseError};
use crate::range::{RangeBound, RangeSetOrTag, VersionBound, VersionBoundKind, VersionRange, VersionRangeSet};
use crate::string::StackString;
use crate::version::{Version, VersionParts, VersionPreOrBuild};
use crate::CowVec;
use std::borrow::Cow;
use std::cmp::Ordering;
use std::fmt;

/// Whether the text is a range as most are: `^`, `~` or nothing before one to three plain numbers, and a plain qualifier behind three. Every
/// grammar has it, and it is no tag.
#[inline]
pub(crate) fn is_plain_range(text: &str) -> bool {
    let partial = match text.as_bytes() {
        [b'^' | b'~', partial @ ..] | partial => partial,
    };
    plain_numbers(partial).is_some_and(|(_, count, rest)| rest.is_empty() || count == 3 && is_plain_qualifier(rest))
}

/// The three numbers of a version as most are, and whether it has neither a pre-release nor a build: three plain numbers, and a plain
/// qualifier or nothing. It is displayed as it is written.
#[inline]
pub(crate) fn plain_version(text: &str) -> Option<([u64; 3], bool)> {
    let (numbers, count, rest) = plain_numbers(text.as_bytes())?;
    (count == 3 && (rest.is_empty() || is_plain_qualifier(rest))).then_some((numbers, rest.is_empty()))
}

/// Whether a version with a pre-release or a build, as displayed, has a pre-release.
#[inline]
pub(crate) fn is_pre_release(displayed: &str) -> bool {
    displayed.find(['-', '+']).is_some_and(|at| displayed[at..].starts_with('-'))
}

/// The numbers before each `-` in the canonical form of ranges, among them those of all bounds that are pre-releases. By npm's rule a range
/// matches a pre-release only if a bound is a pre-release of the same numbers.
pub(crate) fn numbers_of_pre_releases(normal: &str) -> Vec<[u64; 3]> {
    let numbers = |(at, _)| {
        let digits = normal[..at].rsplit(|c: char| !c.is_ascii_digit() && c != '.').next()?;
        let mut numbers = digits.split('.').map(|number| number.parse().ok());
        Some([numbers.next()??, numbers.next()??, numbers.next()??])
    };
    normal.match_indices('-').filter_map(numbers).collect()
}

/// One to three plain numbers with dots between them, how many there are, and what follows. A plain number has at most 15 digits and no
/// leading zero.
#[inline]
fn plain_numbers(text: &[u8]) -> Option<([u64; 3], usize, &[u8])> {
    let (mut numbers, mut index, mut start, mut end) = ([0; 3], 0, 0, text.len());
    for (at, byte) in text.iter().enumerate() {
        match byte {
            b'0'..=b'9' if at == start || at - start < 15 && text[start] != b'0' => {
                numbers[index] = 10 * numbers[index] + u64::from(byte - b'0');
            }
            b'.' if at > start && index < 2 => (index, start) = (index + 1, at + 1),
            _ => {
                end = at;
                break;
            }
        }
    }
    (start < end).then_some((numbers, index + 1, &text[end..]))
}

/// Whether the text is a plain qualifier: `-` and identifiers, `+` and identifiers, or both.
#[inline]
fn is_plain_qualifier(text: &[u8]) -> bool {
    match text {
        [b'+', build @ ..] => are_identifiers(build),
        [b'-', pre @ ..] => match pre.iter().position(|byte| *byte == b'+') {
            Some(end) => are_identifiers(&pre[..end]) && are_identifiers(&pre[end + 1..]),
            None => are_identifiers(pre),
        },
        _ => false,
    }
}

/// Whether the text is identifiers of letters, digits and `-`, with dots between them.
#[inline]
fn are_identifiers(text: &[u8]) -> bool {
    let mut last = b'.';
    for &byte in text {
        if !(byte.is_ascii_alphanumeric() || byte == b'-' || byte == b'.' && last != b'.') {
            return false;
        }
        last = byte;
    }
    last != b'.'
}

/// The parts of a package with a requirement: a name, an optional requirement behind `@`, and a path behind `/`.
pub(crate) struct PackageParts<'a> {
    pub(crate) name: &'a str,
    pub(crate) requirement: Option<&'a str>,
    pub(crate) path: &'a str,
}

#[inline]
pub(crate) fn package_parts(text: &str) -> Result<PackageParts<'_>, PackageReqPartsParseError> {
    let text = text.strip_prefix('/').unwrap_or(text);
    let scope = match text.starts_with('@') {
        true => text.find('/').ok_or(PackageReqPartsParseError::InvalidPackageName)? + 1,
        false => 0,
    };
    let (last, path) = text[scope..].split_once('/').unwrap_or((&text[scope..], ""));
    if last.is_empty() {
        return Err(match scope {
            0 => PackageReqPartsParseError::NoPackageName,
            _ => PackageReqPartsParseError::InvalidPackageName,
        });
    }
    let (name, requirement) = last.rsplit_once('@').map_or((last, None), |(name, requirement)| (name, Some(requirement)));
    Ok(PackageParts { name: &text[..scope + name.len()], requirement, path })
}

/// The name of a package, its version up to `/`, and what follows.
#[inline]
pub(crate) fn name_with_version(text: &str) -> Option<(&str, &str, &str)> {
    let after_first = text.chars().next()?.len_utf8();
    let at = after_first + text[after_first..].find('@')?;
    let (version, rest) = text[at + 1..].split_at(text[at + 1..].find('/').unwrap_or(text.len() - at - 1));
    Some((&text[..at], version, rest))
}

/// The path of a reference, or its fault: a version that stands in it, and the path before that.
#[inline]
pub(crate) fn reference_path(path: &str, has_requirement: bool) -> Result<Option<&str>, (&str, &str)> {
    match path {
        "" | "/" => Ok(None),
        _ if has_requirement => Ok(Some(path)),
        _ => path.rsplit_once('@').map_or(Ok(Some(path)), |(before, version)| Err((version, before))),
    }
}

/// The path of a reference to one version, given what follows the version. None if that is no path.
#[inline]
pub(crate) fn version_reference_path(rest: &str) -> Option<Option<&str>> {
    match rest {
        "" => Some(None),
        _ => rest.strip_prefix('/').map(Some),
    }
}

/// The registry of a dependency and its package; or its scheme, if that is no registry's.
pub(crate) fn dependency_parts(text: &str) -> Result<(PackageKind, &str), &str> {
    let kinds = [PackageKind::Jsr, PackageKind::Npm];
    let mut parts = kinds.into_iter().filter_map(|kind| Some((kind, text.strip_prefix(kind.scheme_with_colon())?)));
    parts.next().ok_or_else(|| text.split_once(':').map_or(text, |(scheme, _)| scheme))
}

/// The scope of a name, with its `@`.
pub(crate) fn scope(name: &str) -> Option<&str> {
    name.starts_with('@').then(|| name.split_once('/').map_or(name, |(scope, _)| scope))
}

/// The export's name, such as `./mod.ts`, for a path in a JSR package; without a path it is `.`.
pub fn normalized_export_name(sub_path: Option<&str>) -> Cow<'_, str> {
    let path = match sub_path {
        None | Some("" | "/" | ".") => return Cow::Borrowed("."),
        Some(path) => path.strip_suffix('/').unwrap_or(path),
    };
    if path.starts_with("./") {
        return Cow::Borrowed(path);
    }
    Cow::Owned(["./", path.strip_prefix('/').unwrap_or(path)].concat())
}

/// The parts of a version as displayed: numbers, `-` and a pre-release, `+` and a build.
pub(crate) fn version_parts(displayed: &str) -> VersionParts {
    let (rest, build) = displayed.split_once('+').unwrap_or((displayed, ""));
    let (numbers, pre) = rest.split_once('-').unwrap_or((rest, ""));
    let mut numbers = numbers.split('.').map(|number| number.parse().expect("a version has three numbers"));
    let mut number = || numbers.next().expect("a version has three numbers");
    VersionParts { major: number(), minor: number(), patch: number(), pre: identifiers(pre), build: identifiers(build) }
}

fn identifiers(text: &str) -> CowVec<VersionPreOrBuild> {
    text.split('.').filter(|identifier| !identifier.is_empty()).map(StackString::from_str).collect()
}

/// Writes the numbers with dots between them. They are put together first, from the last digit on, since each write takes time.
pub(crate) fn write_numbers(numbers: [u64; 3], f: &mut fmt::Formatter<'_>) -> fmt::Result {
    const LONGEST: usize = 3 * 21;
    let (mut text, mut start) = ([0; LONGEST], LONGEST);
    for mut number in numbers.into_iter().rev() {
        loop {
            start -= 1;
            text[start] = b'0' + (number % 10) as u8;
            number /= 10;
            if number == 0 {
                break;
            }
        }
        start -= 1;
        text[start] = b'.';
    }
    f.write_str(std::str::from_utf8(&text[start + 1..]).expect("digits and dots"))
}

pub(crate) fn write_identifiers(
    pre: &[VersionPreOrBuild],
    build: &[VersionPreOrBuild],
    f: &mut fmt::Formatter<'_>,
) -> fmt::Result {
    for (start, identifiers) in [('-', pre), ('+', build)] {
        for (n, identifier) in identifiers.iter().enumerate() {
            write!(f, "{}{identifier}", if n == 0 { start } else { '.' })?;
        }
    }
    Ok(())
}

impl Version {
    /// The order by precedence, which ignores the build.
    #[inline]
    pub fn cmp_precedence(&self, other: &Version) -> Ordering {
        self.numbers().cmp(&other.numbers()).then_with(|| match (self.qualified(), other.qualified()) {
            (Some(one), Some(two)) => ordering(semver_version_compare(one.handle(), two.handle())),
            // A release is above its pre-releases.
            _ => other.is_pre().cmp(&self.is_pre()),
        })
    }
}

impl Ord for Version {
    #[inline]
    fn cmp(&self, other: &Version) -> Ordering {
        self.numbers().cmp(&other.numbers()).then_with(|| match (self.qualified(), other.qualified()) {
            (Some(one), Some(two)) => ordering(semver_version_order(one.handle(), two.handle())),
            // A release is above its pre-releases, and below itself with a build.
            (one, two) => other.is_pre().cmp(&self.is_pre()).then(one.is_some().cmp(&two.is_some())),
        })
    }
}

impl PartialEq for Version {
    #[inline]
    fn eq(&self, other: &Version) -> bool {
        self.numbers() == other.numbers()
            && match (self.qualified(), other.qualified()) {
                (None, None) => true,
                (Some(one), Some(two)) => one.as_str() == two.as_str(),
                _ => false,
            }
    }
}

impl VersionBound {
    fn is_inclusive(&self) -> bool {
        self.kind == VersionBoundKind::Inclusive
    }

    // Whether a version is on the side of this bound that is `inner`, or at it.
    fn admits(&self, version: &Version, inner: Ordering) -> bool {
        match version.cmp_precedence(&self.version) {
            Ordering::Equal => self.is_inclusive(),
            order => order == inner,
        }
    }

    // This start, or where that end is if the start is past it.
    fn stopped_at(self, end: &VersionBound) -> VersionBound {
        match self.version.cmp_precedence(&end.version) {
            Ordering::Greater => VersionBound::new(VersionBoundKind::Exclusive, end.version.clone()),
            Ordering::Equal if self.is_inclusive() => end.clone(),
            _ => self,
        }
    }

    // Whether this start isn't above that end; at one version both must include it.
    fn meets(&self, end: &VersionBound) -> bool {
        self.admits(&end.version, Ordering::Greater) && (end.is_inclusive() || self.version.cmp_precedence(&end.version).is_ne())
    }
}

impl RangeBound {
    /// The narrower of two starts.
    pub fn clamp_start(&self, other: &RangeBound) -> RangeBound {
        self.narrower(other, Ordering::Greater)
    }

    /// The narrower of two ends.
    pub fn clamp_end(&self, other: &RangeBound) -> RangeBound {
        self.narrower(other, Ordering::Less)
    }

    // The narrower of two bounds, which is this one if its version compares so to the other.
    fn narrower(&self, other: &RangeBound, inner: Ordering) -> RangeBound {
        let is_narrower = match (self, other) {
            (RangeBound::Unbounded, _) => false,
            (_, RangeBound::Unbounded) => true,
            (RangeBound::Version(one), RangeBound::Version(two)) => match one.version.cmp_precedence(&two.version) {
                Ordering::Equal => !one.is_inclusive(),
                order => order == inner,
            },
        };
        if is_narrower { self } else { other }.clone()
    }

    /// Whether the bound is a pre-release of the same three numbers as the version.
    pub fn has_pre_with_exact_major_minor_patch(&self, version: &Version) -> bool {
        self.bound().is_some_and(|bound| bound.version.is_pre() && bound.version.numbers() == version.numbers())
    }

    fn bound(&self) -> Option<&VersionBound> {
        match self {
            RangeBound::Version(bound) => Some(bound),
            RangeBound::Unbounded => None,
        }
    }
}

impl VersionRange {
    /// Whether the range ends below 0.0.0, where no version is.
    pub fn is_none(&self) -> bool {
        self.end.bound().is_some_and(|end| !end.is_inclusive() && end.version.numbers() == [0, 0, 0])
    }

    /// Whether the version matches, by npm's rule for pre-releases.
    pub fn satisfies(&self, version: &Version) -> bool {
        let may_match = !version.is_pre()
            || self.start.has_pre_with_exact_major_minor_patch(version)
            || self.end.has_pre_with_exact_major_minor_patch(version);
        may_match && self.intersects_version(version)
    }

    /// What both ranges have in common. If they have nothing in common, the result starts and ends at one version, and one of its bounds
    /// excludes that version.
    pub fn clamp(&self, range: &VersionRange) -> VersionRange {
        let end = self.end.clamp_end(&range.end);
        let start = match (self.start.clamp_start(&range.start), &end) {
            (RangeBound::Version(start), RangeBound::Version(end)) => RangeBound::Version(start.stopped_at(end)),
            (start, _) => start,
        };
        VersionRange { start, end }
    }

    /// Whether the version is between the bounds.
    pub fn intersects_version(&self, version: &Version) -> bool {
        self.start.bound().is_none_or(|start| start.admits(version, Ordering::Greater))
            && self.end.bound().is_none_or(|end| end.admits(version, Ordering::Less))
    }

    /// Whether the bounds of the ranges overlap.
    pub fn intersects_range(&self, other: &VersionRange) -> bool {
        let meet = |start: &RangeBound, end: &RangeBound| match (start.bound(), end.bound()) {
            (Some(start), Some(end)) => start.meets(end),
            _ => true,
        };
        meet(&self.start, &other.end) && meet(&other.start, &self.end)
    }
}

impl VersionRangeSet {
    /// Whether the version matches one of the ranges, by npm's rule for pre-releases.
    pub fn satisfies(&self, version: &Version) -> bool {
        self.0.iter().any(|range| range.satisfies(version))
    }

    /// Whether any range of this set overlaps any range of the other, by their bounds.
    pub fn intersects_set(&self, other: &VersionRangeSet) -> bool {
        self.0.iter().any(|one| other.0.iter().any(|two| one.intersects_range(two)))
    }
}

impl RangeSetOrTag {
    /// Whether the bounds of ranges overlap, or tags are equal.
    pub fn intersects(&self, other: &RangeSetOrTag) -> bool {
        match (self, other) {
            (RangeSetOrTag::RangeSet(one), RangeSetOrTag::RangeSet(two)) => one.intersects_set(two),
            (RangeSetOrTag::Tag(one), RangeSetOrTag::Tag(two)) => one == two,
            _ => false,
        }
    }
}

// The canonical forms; that of no range matches nothing, and that of a tag is the tag.
display! {
    VersionRange: |it, f| match (it.start.bound(), it.end.bound()) {
        (None, None) => f.write_str("*"),
        (None, Some(end)) => write_end(end, f),
        (Some(start), None) => write_start(start, f),
        (Some(start), Some(end)) if start.is_inclusive() => write_from(&start.version, end, f),
        (Some(start), Some(end)) => {
            write_start(start, f)?;
            f.write_str(" ")?;
            write_end(end, f)
        }
    };
    VersionRangeSet: |it, f| {
        let Some((first, rest)) = it.0.split_first() else {
            return f.write_str("<0.0.0");
        };
        write!(f, "{first}")?;
        rest.iter().try_for_each(|range| write!(f, " || {range}"))
    };
    RangeSetOrTag: |it, f| match it {
        RangeSetOrTag::RangeSet(ranges) => ranges.fmt(f),
        RangeSetOrTag::Tag(tag) => tag.fmt(f),
    };
}

fn write_start(start: &VersionBound, f: &mut fmt::Formatter<'_>) -> fmt::Result {
    write!(f, "{}{}", if start.is_inclusive() { ">=" } else { ">" }, start.version)
}

fn write_end(end: &VersionBound, f: &mut fmt::Formatter<'_>) -> fmt::Result {
    write!(f, "{}{}", if end.is_inclusive() { "<=" } else { "<" }, end.version)
}

// The range from a version, which it includes, to an end.
fn write_from(start: &Version, end: &VersionBound, f: &mut fmt::Formatter<'_>) -> fmt::Result {
    if end.is_inclusive() && *start == end.version {
        return write!(f, "{start}");
    }
    if let Some(form) = short_form(start, &end.version).filter(|_| !end.is_inclusive()) {
        return f.write_str(&form);
    }
    if *start != Version::default() {
        write!(f, ">={start} ")?;
    }
    write_end(end, f)
}

// The short form of the range from a version to below another.
fn short_form(start: &Version, end: &Version) -> Option<String> {
    let below_major = start.major.checked_add(1).map(|major| [major, 0, 0]);
    let below_minor = start.minor.checked_add(1).map(|minor| [start.major, minor, 0]);
    let below_patch = start.patch.checked_add(1).map(|patch| [0, 0, patch]);
    if end.qualified().is_some() {
        return None;
    }
    let end = Some(end.numbers());
    let is_short = start.qualified().is_none() && start.patch == 0;
    if is_short && start.minor == 0 && end == below_major {
        Some(start.major.to_string())
    } else if end == below_minor {
        Some(if is_short { format!("{}.{}", start.major, start.minor) } else { format!("~{start}") })
    } else if (start.major, start.minor) == (0, 0) && end == below_patch || start.major > 0 && end == below_major {
        Some(format!("^{start}"))
    } else {
        None
    }
}
