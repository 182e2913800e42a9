//! What a range means, alternative by alternative.

use crate::calls::{code_and_text, failed, INVALID_RANGE, TAG, YES};
use crate::error::Place;
use crate::externs::*;
use crate::range::VersionRange;
use crate::{json, Grammar, InvalidRange, PreRelease};

/// What a range means.
#[derive(Clone, Debug, PartialEq, Eq)]
pub struct Explanation {
    /// The alternatives, which `||` separates, in their order.
    pub alternatives: Vec<Alternative>,
    /// The canonical form.
    pub canonical: String,
}

/// An alternative of a range.
#[derive(Clone, Debug, PartialEq, Eq)]
pub struct Alternative {
    /// The string, without the whitespace around it.
    pub text: String,
    /// What it means, or why it is invalid. npm's grammar leaves invalid alternatives out.
    pub meaning: Result<Meaning, LeftOut>,
}

/// What an alternative means.
#[derive(Clone, Debug, PartialEq, Eq)]
pub struct Meaning {
    /// Its comparators, in their order; none if it is empty.
    pub comparators: Vec<Comparator>,
    /// Its bounds.
    pub range: VersionRange,
    /// Which pre-releases match.
    pub pre_releases: PreReleases,
    /// The lowest version that matches, as displayed.
    pub lowest: Option<String>,
}

/// A comparator as written, such as `>=1.2`, or a hyphen range, such as `1 - 2`.
#[derive(Clone, Debug, PartialEq, Eq)]
pub struct Comparator {
    /// The string.
    pub text: String,
    /// The range that it means by itself.
    pub range: VersionRange,
}

/// The pre-releases that an alternative matches.
#[derive(Clone, Debug, PartialEq, Eq)]
pub enum PreReleases {
    /// All between the bounds.
    All,
    /// Those between the bounds that have one of these three numbers, such as `1.2.3`.
    Of(Vec<String>),
}

/// Why an alternative is invalid.
#[derive(Clone, Debug, PartialEq, Eq)]
pub struct LeftOut {
    /// What is wrong, in one line.
    pub message: String,
    /// Where, in the whole range.
    pub place: Place,
}

/// What the range means; none if it is a tag.
///
/// ```
/// # use deno_semver_proved::{explain::explain, Grammar, PreRelease};
/// let explanation = explain(Grammar::Npm, "^1.2 <1.5 || 1..2", PreRelease::Restricted).unwrap().unwrap();
/// let [valid, invalid] = &explanation.alternatives[..] else { panic!() };
/// let comparators = &valid.meaning.as_ref().unwrap().comparators;
/// assert_eq!(comparators.iter().map(|it| &it.text[..]).collect::<Vec<_>>(), ["^1.2", "<1.5"]);
/// assert_eq!(invalid.meaning.as_ref().unwrap_err().place.start, 15);
/// ```
pub fn explain(grammar: Grammar, range: &str, pre_release: PreRelease) -> Result<Option<Explanation>, InvalidRange> {
    match code_and_text(|out, needed| semver_explain(grammar as u32, range, pre_release as u32, out, needed)) {
        (YES, text) => Ok(Some(json::explanation(&text))),
        (TAG, _) => Ok(None),
        (INVALID_RANGE, message) => Err(InvalidRange { place: 0, message }),
        (code, _) => failed(code),
    }
}
