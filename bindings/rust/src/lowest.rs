//! Exact answers about ranges: the lowest version that one matches, that all match, or that only one of two matches, and whether two match
//! the same versions.

use crate::calls::{answer, code_and_text, failed, lines, message, text_or_message, INVALID_RANGE, NO, TAG, YES};
use crate::externs::*;
use crate::{Grammar, InvalidRange, PreRelease};
use std::fmt::Display;

/// The lowest version with some property.
#[derive(Clone, Debug, PartialEq, Eq)]
pub enum Lowest {
    /// No version has it.
    Nothing,
    /// The version, as displayed.
    Version(String),
    /// A range is a tag.
    Tag,
}

// What a call found: `found` is the code that comes with a version.
fn lowest(found: i32, mut call: impl FnMut(&mut [u8], &mut usize, &mut usize) -> i32) -> Result<Lowest, InvalidRange> {
    let mut place = 0;
    match code_and_text(|out, needed| call(out, needed, &mut place)) {
        (TAG, _) => Ok(Lowest::Tag),
        (INVALID_RANGE, message) => Err(InvalidRange { place, message }),
        (code @ (NO | YES), text) => Ok(if code == found { Lowest::Version(text) } else { Lowest::Nothing }),
        (code, _) => failed(code),
    }
}

/// The lowest version that the range matches.
pub fn min_version(grammar: Grammar, range: &str, pre_release: PreRelease) -> Result<Lowest, InvalidRange> {
    lowest(YES, |out, needed, _| semver_min_version(grammar as u32, range, pre_release as u32, out, needed))
}

/// The lowest version that all ranges match; none if you pass no ranges.
///
/// ```
/// # use deno_semver_proved::{lowest::{common_version, Lowest}, Grammar, PreRelease};
/// let common = common_version(Grammar::Npm, ["^1.2", "~1.4 || ^2"], PreRelease::Restricted).unwrap();
/// assert_eq!(common, Lowest::Version("1.4.0".into()));
/// ```
pub fn common_version(
    grammar: Grammar,
    ranges: impl IntoIterator<Item = impl Display>,
    pre_release: PreRelease,
) -> Result<Lowest, InvalidRange> {
    let (ranges, _) = lines(ranges);
    lowest(YES, |out, needed, place| semver_common_all(grammar as u32, &ranges, pre_release as u32, out, needed, place))
}

/// The lowest version that the first range matches and the other doesn't; none if the other contains the first.
pub fn counterexample(grammar: Grammar, one: &str, other: &str, pre_release: PreRelease) -> Result<Lowest, InvalidRange> {
    lowest(NO, |out, needed, place| semver_within(grammar as u32, one, other, pre_release as u32, out, needed, place))
}

/// Whether both ranges match the same versions; none if one is a tag.
pub fn equivalent(grammar: Grammar, one: &str, other: &str, pre_release: PreRelease) -> Result<Option<bool>, InvalidRange> {
    let mut place = 0;
    match semver_equivalent(grammar as u32, one, other, pre_release as u32, &mut place) {
        INVALID_RANGE => Err(InvalidRange { place, message: message(grammar, if place == 0 { one } else { other }) }),
        code => Ok(answer(code)),
    }
}

/// The canonical form of the range, or the tag.
pub fn normal(grammar: Grammar, range: &str) -> Result<String, InvalidRange> {
    text_or_message(|out, needed| semver_normal(grammar as u32, range, out, needed))
        .map_err(|message| InvalidRange { place: 0, message })
}
