//! Questions about lists of versions.

use crate::calls::{code_and_text, failed, lines, message, INVALID_RANGE, INVALID_VERSION, NO, TAG, YES};
use crate::externs::*;
use crate::raw::Versions;
use crate::version_req::VersionReq;
use crate::{Grammar, InvalidRange, PreRelease};
use std::fmt::Display;
use std::sync::Arc;

/// Whether a version matches a range.
#[derive(Clone, Copy, Debug, PartialEq, Eq)]
pub enum Fit {
    /// It doesn't.
    No,
    /// It does.
    Yes,
    /// The range is a tag.
    Tag,
    /// The version is invalid.
    Invalid,
}

fn fit(code: i8) -> Fit {
    match i32::from(code) {
        NO => Fit::No,
        YES => Fit::Yes,
        INVALID_VERSION => Fit::Invalid,
        code => failed(code),
    }
}

/// Which version of a list was chosen.
#[derive(Clone, Copy, Debug, PartialEq, Eq)]
pub enum Best {
    /// None matches.
    Nothing,
    /// The version at this index.
    At(usize),
    /// The range is a tag.
    Tag,
    /// The version at this index is invalid.
    Invalid(usize),
}

/// A short range that matches the same versions of a list.
#[derive(Clone, Debug, PartialEq, Eq)]
pub enum Simplified {
    /// The range.
    Range(String),
    /// The range is a tag.
    Tag,
    /// The version at this index is invalid.
    Invalid(usize),
}

// The error of a call that writes no message, about its range.
fn invalid(grammar: Grammar, range: &str) -> InvalidRange {
    InvalidRange { place: 0, message: message(grammar, range) }
}

// The answers of a call for so many versions; none if the range is invalid.
fn fits(count: usize, call: impl FnOnce(&mut [i8], &mut usize) -> i32) -> Option<Vec<Fit>> {
    let mut answers = vec![0; count];
    match call(&mut answers, &mut 0) {
        YES => Some(answers.into_iter().map(fit).collect()),
        TAG => Some(vec![Fit::Tag; count]),
        INVALID_RANGE => None,
        code => failed(code),
    }
}

// The version that a call chooses; none if the range is invalid.
fn chosen(call: impl FnOnce(&mut usize) -> i32) -> Option<Best> {
    let mut place = 0;
    match call(&mut place) {
        NO => Some(Best::Nothing),
        YES => Some(Best::At(place)),
        TAG => Some(Best::Tag),
        INVALID_VERSION => Some(Best::Invalid(place)),
        INVALID_RANGE => None,
        code => failed(code),
    }
}

/// Whether each version matches the range.
///
/// ```
/// # use deno_semver_proved::{lists::{filter, Fit}, Grammar, PreRelease};
/// let fits = filter(Grammar::Npm, "^1.2", ["1.3.0", "2.0.0"], PreRelease::Restricted).unwrap();
/// assert_eq!(fits, [Fit::Yes, Fit::No]);
/// ```
pub fn filter(
    grammar: Grammar,
    range: &str,
    versions: impl IntoIterator<Item = impl Display>,
    pre_release: PreRelease,
) -> Result<Vec<Fit>, InvalidRange> {
    let (versions, count) = lines(versions);
    let call = |out: &mut _, needed: &mut _| semver_filter(grammar as u32, range, &versions, pre_release as u32, out, needed);
    fits(count, call).ok_or_else(|| invalid(grammar, range))
}

/// Which version is the highest that matches the range; the first of equal ones.
pub fn best(
    grammar: Grammar,
    range: &str,
    versions: impl IntoIterator<Item = impl Display>,
    pre_release: PreRelease,
) -> Result<Best, InvalidRange> {
    let (versions, _) = lines(versions);
    let call = |place: &mut _| semver_best(grammar as u32, range, &versions, pre_release as u32, place);
    chosen(call).ok_or_else(|| invalid(grammar, range))
}

/// Which version is the lowest that matches the range; the first of equal ones.
pub fn lowest(
    grammar: Grammar,
    range: &str,
    versions: impl IntoIterator<Item = impl Display>,
    pre_release: PreRelease,
) -> Result<Best, InvalidRange> {
    let (versions, _) = lines(versions);
    let call = |place: &mut _| semver_lowest(grammar as u32, range, &versions, pre_release as u32, place);
    chosen(call).ok_or_else(|| invalid(grammar, range))
}

/// A short range that matches the same versions of the list: the range as you wrote it or, if that is shorter, the ranges in which they
/// match, in canonical form.
///
/// ```
/// # use deno_semver_proved::{lists::{simplify, Simplified}, Grammar, PreRelease};
/// let range = simplify(Grammar::Npm, "1.2.0 || 1.3.0", ["1.1.0", "1.2.0", "1.3.0"], PreRelease::Restricted).unwrap();
/// assert_eq!(range, Simplified::Range(">=1.2.0".into()));
/// ```
pub fn simplify(
    grammar: Grammar,
    range: &str,
    versions: impl IntoIterator<Item = impl Display>,
    pre_release: PreRelease,
) -> Result<Simplified, InvalidRange> {
    let (versions, _) = lines(versions);
    let mut place = 0;
    let call = |out: &mut _, needed: &mut _| {
        semver_simplify(grammar as u32, range, &versions, pre_release as u32, out, needed, &mut place)
    };
    match code_and_text(call) {
        (YES, text) => Ok(Simplified::Range(text)),
        (TAG, _) => Ok(Simplified::Tag),
        (INVALID_VERSION, _) => Ok(Simplified::Invalid(place)),
        (INVALID_RANGE, message) => Err(InvalidRange { place, message }),
        (code, _) => failed(code),
    }
}

/// The indexes of the versions by precedence; versions that differ in the build alone keep their order. If a version is invalid, its index
/// is the error.
pub fn sort(versions: impl IntoIterator<Item = impl Display>) -> Result<Vec<usize>, usize> {
    let (versions, count) = lines(versions);
    let (mut places, mut place) = (vec![0; count], 0);
    match semver_sort(&versions, &mut places, &mut 0, &mut place) {
        YES => Ok(places),
        INVALID_VERSION => Err(place),
        code => failed(code),
    }
}

/// Versions that are parsed once, for many ranges.
#[derive(Clone)]
pub struct VersionList {
    held: Arc<Versions>,
    count: usize,
}

impl VersionList {
    /// Parses versions. An invalid one keeps its place and matches nothing.
    pub fn parse(versions: impl IntoIterator<Item = impl Display>) -> VersionList {
        let (versions, mut count) = lines(versions);
        let (held, _) = Versions::read(|handle, _, _| semver_list_read(&versions, handle, &mut count));
        VersionList { held: Arc::new(held), count }
    }

    /// Whether each version matches the requirement.
    pub fn filter(&self, req: &VersionReq, pre_release: PreRelease) -> Vec<Fit> {
        let call = |out: &mut _, needed: &mut _| semver_list_filter(&self.held, req.held(), pre_release as u32, out, needed);
        fits(self.count, call).expect("a requirement is valid")
    }

    /// Which version is the highest that matches; the first of equal ones.
    pub fn best(&self, req: &VersionReq, pre_release: PreRelease) -> Best {
        chosen(|place| semver_list_best(&self.held, req.held(), pre_release as u32, place)).expect("a requirement is valid")
    }

    /// Which version is the lowest that matches; the first of equal ones.
    pub fn lowest(&self, req: &VersionReq, pre_release: PreRelease) -> Best {
        chosen(|place| semver_list_lowest(&self.held, req.held(), pre_release as u32, place)).expect("a requirement is valid")
    }

    /// The indexes of the versions by precedence; versions that differ in the build alone keep their order. Invalid ones are left out.
    pub fn sort(&self) -> Vec<usize> {
        let (mut places, mut needed) = (vec![0; self.count], 0);
        match semver_list_sort(&self.held, &mut places, &mut needed) {
            YES => places.truncate(needed),
            code => failed(code),
        }
        places
    }

    /// How many versions there are, with the invalid ones.
    pub fn len(&self) -> usize {
        self.count
    }

    /// Whether the list is empty.
    pub fn is_empty(&self) -> bool {
        self.count == 0
    }
}
