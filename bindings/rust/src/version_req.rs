//! Version requirements: ranges and tags.

use crate::calls::{self, answer, ordering, with_text, Grammar, PreRelease};
use crate::error::{display, parse_error, ParseErrorFailureError};
use crate::externs::*;
use crate::json;
use crate::lowest::{self, Lowest};
use crate::npm::NpmVersionReqParseError;
use crate::own;
use crate::range::{RangeSetOrTag, VersionRangeSet};
use crate::raw::{Requirement, Scans};
use crate::scan::Scan;
use crate::string::{SmallStackString, StackString};
use crate::version::Version;
use std::cmp::Ordering;
use std::fmt;
use std::hash::{Hash, Hasher};
use std::mem::ManuallyDrop;
use std::ptr;
use std::sync::{Arc, OnceLock};

/// A version requirement: ranges, or a tag. Two are equal if they have the same bounds in the same order, or are the same tag, whatever
/// their strings.
///
/// The first time that you match, the crate parses the requirement into a handle of the C library. Copies that you make later share it.
#[derive(Clone)]
pub struct VersionReq {
    text: StackString,
    grammar: Grammar,
    is_tag: bool,
    parsed: Lazy,
}

/// What answers questions about a requirement.
struct Parsed {
    handle: Requirement,
    // The string that was parsed. It isn't that of the requirement if the caller gave both.
    text: StackString,
    grammar: Grammar,
    // The canonical form, or the tag.
    normal: StackString,
    // The numbers that a pre-release must have to match by npm's rule.
    pre_releases: Vec<[u64; 3]>,
    inner: OnceLock<RangeSetOrTag>,
}

impl Parsed {
    fn of(grammar: Grammar, text: StackString, inner: OnceLock<RangeSetOrTag>) -> Shared {
        let (handle, normal) = Requirement::read(|it, out, needed| semver_req_read(grammar as u32, &text, it, out, needed));
        let pre_releases = own::numbers_of_pre_releases(&normal);
        Shared { handle: handle.copy(), parsed: Arc::new(Parsed { handle, text, grammar, normal, pre_releases, inner }) }
    }
}

/// What copies share. The handle is a copy of that of `parsed`, and is found faster.
struct Shared {
    handle: ManuallyDrop<Requirement>,
    parsed: Arc<Parsed>,
}

impl Clone for Shared {
    #[inline]
    fn clone(&self) -> Shared {
        Shared { handle: self.handle.copy(), parsed: self.parsed.clone() }
    }
}

/// What is made when it is first needed, and shared by copies that are made later.
enum Lazy {
    Now(Shared),
    Later(OnceLock<Shared>),
}

impl Clone for Lazy {
    #[inline]
    fn clone(&self) -> Lazy {
        match self {
            Lazy::Now(shared) => Lazy::Now(shared.clone()),
            Lazy::Later(shared) => shared.get().map_or_else(|| Lazy::Later(OnceLock::new()), |shared| Lazy::Now(shared.clone())),
        }
    }
}

impl VersionReq {
    /// Parses comparators separated by whitespace, with alternatives separated by `||`: the form in which requirements are stored.
    pub fn parse_from_normalized(text: &str) -> Result<VersionReq, VersionReqNormalizedParseError> {
        VersionReq::parse(Grammar::Normalized, text).map_err(|source| VersionReqNormalizedParseError { source })
    }

    /// Parses the requirement of a package specifier: `~`, `^` or nothing before one partial version, or a tag.
    pub fn parse_from_specifier(text: &str) -> Result<VersionReq, VersionReqSpecifierParseError> {
        VersionReq::parse(Grammar::Strict, text).map_err(|source| VersionReqSpecifierParseError { source })
    }

    /// Parses a requirement by npm's grammar, which leaves out invalid alternatives: [`explain`](crate::explain::explain) returns these.
    pub fn parse_from_npm(text: &str) -> Result<VersionReq, NpmVersionReqParseError> {
        VersionReq::parse(Grammar::Npm, text).map_err(|source| NpmVersionReqParseError { source })
    }

    #[inline]
    pub(crate) fn parse(grammar: Grammar, text: &str) -> Result<VersionReq, ParseErrorFailureError> {
        let kept = if grammar == Grammar::Npm { text.trim() } else { text };
        let is_tag = calls::is_tag(grammar, kept).map_err(|message| ParseErrorFailureError::of_range(message, grammar, text))?;
        Ok(VersionReq { text: kept.into(), grammar, is_tag, parsed: Lazy::Later(OnceLock::new()) })
    }

    /// A requirement that has these ranges or this tag, and `raw_text` as its string.
    ///
    /// # Panics
    ///
    /// If the tag isn't a valid one.
    pub fn from_raw_text_and_inner(raw_text: SmallStackString, inner: RangeSetOrTag) -> VersionReq {
        let (text, is_tag) = match &inner {
            RangeSetOrTag::RangeSet(ranges) => (ranges.to_string(), false),
            RangeSetOrTag::Tag(tag) => {
                assert!(semver_may_be_tag(tag) == calls::YES, "a valid tag: {tag}");
                // No range begins with a space, so that this is a tag even if the tag reads as a range.
                (format!(" {tag}"), true)
            }
        };
        let parsed = Lazy::Now(Parsed::of(Grammar::Normalized, text.as_str().into(), inner.into()));
        VersionReq { text: raw_text, grammar: Grammar::Normalized, is_tag, parsed }
    }

    /// The ranges or the tag.
    pub fn inner(&self) -> &RangeSetOrTag {
        let Parsed { text, grammar, normal, inner, .. } = self.parsed();
        inner.get_or_init(|| match self.is_tag {
            true => RangeSetOrTag::Tag(normal.clone()),
            false => RangeSetOrTag::RangeSet(with_text(
                |out, needed| semver_ranges(*grammar as u32, text, out, needed),
                |_, json| json::ranges(json),
            )),
        })
    }

    /// The tag, if it is one.
    pub fn tag(&self) -> Option<&str> {
        self.is_tag.then(|| self.normalized())
    }

    /// The ranges, if it isn't a tag.
    pub fn range(&self) -> Option<&VersionRangeSet> {
        match self.inner() {
            RangeSetOrTag::RangeSet(ranges) => Some(ranges),
            RangeSetOrTag::Tag(_) => None,
        }
    }

    /// Whether the version matches, by npm's rule for pre-releases.
    ///
    /// # Panics
    ///
    /// If this is a tag.
    #[inline]
    pub fn matches(&self, version: &Version) -> bool {
        self.matches_with(version, PreRelease::Restricted)
    }

    /// Whether the version matches, by npm's rule for pre-releases or without it.
    ///
    /// # Panics
    ///
    /// If this is a tag.
    #[inline]
    pub fn matches_with(&self, version: &Version, pre_release: PreRelease) -> bool {
        assert!(!self.is_tag, "the requirement is the tag {self}");
        let Shared { handle, parsed } = self.shared();
        let may_match =
            !version.is_pre() || pre_release == PreRelease::Admitted || parsed.pre_releases.contains(&version.numbers());
        may_match && version.is_matched_by(handle, pre_release)
    }

    // The answer of a call about this and a version.
    fn ask(&self, version: &Version, pre_release: PreRelease, call: OfVersion) -> bool {
        let Parsed { grammar, text, .. } = self.parsed();
        let version = version.to_string();
        let ask = |out: &mut [u8], needed: &mut usize| call(*grammar as u32, text, &version, pre_release as u32, out, needed);
        answer(with_text(ask, |code, _| code)).unwrap_or_else(|| panic!("the requirement is the tag {self}"))
    }

    /// Whether the bounds of both overlap; two tags overlap if they are the same.
    #[inline]
    pub fn intersects(&self, other: &VersionReq) -> bool {
        answer(semver_req_intersects(self.held(), other.held())) == Some(true)
    }

    /// The lowest version that matches, by npm's rule for pre-releases or without it.
    pub fn min_version(&self, pre_release: PreRelease) -> Lowest {
        let Parsed { grammar, text, .. } = self.parsed();
        lowest::min_version(*grammar, text, pre_release).expect("the text was parsed")
    }

    /// What matches, as scans of an index on [`Version::sort_key`], by npm's rule for pre-releases or without it; none if this is a tag.
    ///
    /// A release matches exactly if its key is in a scan of releases, and a pre-release exactly if its key is in a scan of pre-releases.
    /// Scans of releases come first, then scans of pre-releases, each in ascending order, with a gap between one scan and the next.
    ///
    /// ```
    /// # use deno_semver_proved::{PreRelease, VersionReq};
    /// let scans = VersionReq::parse_from_npm("^1.2").unwrap().scans(PreRelease::Restricted).unwrap();
    /// assert_eq!((scans[0].is_pre, &scans[0].low[..], &scans[0].high[..]), (false, "A1A2A0~", "A2A0A0~"));
    /// ```
    pub fn scans(&self, pre_release: PreRelease) -> Option<Vec<Scan>> {
        if self.is_tag {
            return None;
        }
        let mut count = 0;
        let (scans, _) = Scans::read(|it, _, _| semver_scans_read(self.held(), pre_release as u32, it, &mut count));
        Some((0..count).map(|index| Scan::at(&scans, index)).collect())
    }

    /// The order of packages that have the same name.
    pub(crate) fn order(&self, other: &VersionReq) -> Ordering {
        ordering(semver_req_order(self.held(), other.held()))
    }

    /// The canonical form, or the tag.
    pub(crate) fn normalized(&self) -> &str {
        &self.parsed().normal
    }

    /// The string that was parsed.
    pub fn version_text(&self) -> &str {
        &self.text
    }

    /// The canonical form, to be stored. [`VersionReq::parse_from_normalized`] parses it.
    pub fn to_string_normalized(&self) -> String {
        self.normalized().to_owned()
    }

    #[inline]
    fn shared(&self) -> &Shared {
        match &self.parsed {
            Lazy::Now(shared) => shared,
            Lazy::Later(shared) => shared.get_or_init(|| Parsed::of(self.grammar, self.text.clone(), OnceLock::new())),
        }
    }

    #[inline]
    fn parsed(&self) -> &Parsed {
        &self.shared().parsed
    }

    #[inline]
    pub(crate) fn held(&self) -> &Requirement {
        &self.shared().handle
    }
}

// Equal requirements have one canonical form, and others may have it too.
impl PartialEq for VersionReq {
    #[inline]
    fn eq(&self, other: &VersionReq) -> bool {
        let (one, two) = (self.parsed(), other.parsed());
        ptr::eq(one, two) || one.normal == two.normal && answer(semver_req_equal(&one.handle, &two.handle)) == Some(true)
    }
}

impl Eq for VersionReq {}

impl Hash for VersionReq {
    fn hash<H: Hasher>(&self, state: &mut H) {
        self.normalized().hash(state);
    }
}

display! {
    VersionReq: |it, f| f.write_str(&it.text);
}

impl fmt::Debug for VersionReq {
    fn fmt(&self, f: &mut fmt::Formatter<'_>) -> fmt::Result {
        write!(f, "VersionReq({self})")
    }
}

parse_error!(
    /// Why a string isn't a requirement of the normalized grammar.
    VersionReqNormalizedParseError,
    "Invalid normalized version requirement"
);
parse_error!(
    /// Why a string isn't a requirement of the strict grammar.
    VersionReqSpecifierParseError,
    "Invalid specifier version requirement"
);

// A call about a range and a version.
type OfVersion = fn(u32, &str, &str, u32, &mut [u8], &mut usize) -> i32;

impl Version {
    /// Whether this is above each version that the requirement matches, by npm's rule for pre-releases or without it.
    ///
    /// ```
    /// # use deno_semver_proved::{PreRelease, Version, VersionReq};
    /// let version = Version::parse_standard("2.0.0").unwrap();
    /// let req = VersionReq::parse_from_npm("^1.2").unwrap();
    /// assert!(version.is_above(&req, PreRelease::Restricted));
    /// ```
    ///
    /// # Panics
    ///
    /// If the requirement is a tag.
    pub fn is_above(&self, req: &VersionReq, pre_release: PreRelease) -> bool {
        req.ask(self, pre_release, semver_above)
    }

    /// Whether this is below each version that the requirement matches, like [`Version::is_above`].
    ///
    /// # Panics
    ///
    /// If the requirement is a tag.
    pub fn is_below(&self, req: &VersionReq, pre_release: PreRelease) -> bool {
        req.ask(self, pre_release, semver_below)
    }
}
