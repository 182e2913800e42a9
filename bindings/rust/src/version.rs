//! Versions.

use crate::calls::{answer, failed, text_or_message, with_text, PreRelease, INVALID_VERSION, NO, YES};
use crate::error::{display, parse_error, ParseErrorFailureError};
use crate::externs::*;
use crate::npm::NpmVersionParseError;
use crate::own;
use crate::raw::{Requirement, VersionHandle};
use crate::string::StackString;
use crate::version_req::VersionReq;
use crate::CowVec;
use std::cmp::Ordering;
use std::fmt;
use std::hash::{Hash, Hasher};
use std::mem::ManuallyDrop;
use std::ops::Deref;
use std::sync::atomic::{AtomicBool, Ordering as AtomicOrdering};
use std::sync::{Arc, OnceLock};

/// An identifier of a pre-release or a build.
pub type VersionPreOrBuild = StackString;

/// The parts of a version, which are those of [`Version`].
#[derive(Clone, Debug, Default, PartialEq, Eq, Hash)]
pub struct VersionParts {
    /// The first number.
    pub major: u64,
    /// The second number.
    pub minor: u64,
    /// The third number.
    pub patch: u64,
    /// The identifiers of the pre-release; empty for a release.
    pub pre: CowVec<VersionPreOrBuild>,
    /// The identifiers of the build.
    pub build: CowVec<VersionPreOrBuild>,
}

/// A version. You read its parts `major`, `minor`, `patch`, `pre` and `build` as fields, and make a version of parts by
/// [`Version::from_parts`].
///
/// `Eq`, `Hash` and `Ord` include the build: the order is by precedence, then by build. If a version has a pre-release or a build, the crate
/// parses it into a handle of the C library when you first ask for its sort key, compare it with another such version of the same three
/// numbers, or match it a second time with a range that has a pre-release of these. It does so once; all copies of the version share the
/// handle.
#[derive(Default)]
pub struct Version {
    // The release of the three numbers. Its lists are empty, so there is nothing to drop.
    release: ManuallyDrop<VersionParts>,
    // None if the version is that release.
    qualified: Option<Arc<Qualified>>,
}

/// A version with a pre-release or a build.
pub(crate) struct Qualified {
    // As displayed.
    text: StackString,
    is_pre: bool,
    // Whether it was matched. The first match is by its string, since many versions are matched once and dropped.
    was_matched: AtomicBool,
    handle: OnceLock<VersionHandle>,
    parts: OnceLock<VersionParts>,
}

impl Qualified {
    #[inline(never)]
    fn of(displayed: &str) -> Arc<Qualified> {
        Arc::new(Qualified {
            text: displayed.into(),
            is_pre: own::is_pre_release(displayed),
            was_matched: AtomicBool::new(false),
            handle: OnceLock::new(),
            parts: OnceLock::new(),
        })
    }

    pub(crate) fn handle(&self) -> &VersionHandle {
        self.handle.get_or_init(|| VersionHandle::read(|it, out, needed| semver_version_read(&self.text, it, out, needed)).0)
    }

    /// How the version is displayed.
    pub(crate) fn as_str(&self) -> &str {
        &self.text
    }

    fn is_matched_by(&self, req: &Requirement, pre_release: PreRelease) -> i32 {
        if self.handle.get().is_none() && !self.was_matched.swap(true, AtomicOrdering::Relaxed) {
            return semver_req_fits(req, &self.text, pre_release as u32);
        }
        semver_req_matches(req, self.handle(), pre_release as u32)
    }
}

impl Version {
    /// Parses a version.
    pub fn parse_standard(text: &str) -> Result<Version, VersionParseError> {
        Version::parse_valid(text).ok_or_else(|| VersionParseError { source: Version::error(text) })
    }

    /// Parses a version by npm's grammar, which is the same one.
    pub fn parse_from_npm(text: &str) -> Result<Version, NpmVersionParseError> {
        Version::parse_valid(text).ok_or_else(|| NpmVersionParseError { source: Version::error(text) })
    }

    #[cold]
    fn error(text: &str) -> ParseErrorFailureError {
        let displayed = text_or_message(|out, needed| semver_version(text, out, needed));
        ParseErrorFailureError::of_version(displayed.expect_err("the text isn't a version"), text)
    }

    /// The version, or none if the string isn't one.
    #[inline(always)]
    pub(crate) fn parse_valid(text: &str) -> Option<Version> {
        match own::plain_version(text) {
            Some((numbers, is_release)) => Some(Version::of(numbers, (!is_release).then(|| Qualified::of(text)))),
            None => Version::read(text),
        }
    }

    /// The same, as the library parses it.
    #[inline(never)]
    fn read(text: &str) -> Option<Version> {
        let mut numbers = [0; 3];
        let qualified = match semver_version_numbers(text, &mut numbers, &mut 0) {
            YES => None,
            NO => Some(with_text(|out, needed| semver_version(text, out, needed), |_, displayed| Qualified::of(displayed))),
            INVALID_VERSION => return None,
            code => failed(code),
        };
        Some(Version::of(numbers, qualified))
    }

    #[inline(always)]
    fn of([major, minor, patch]: [u64; 3], qualified: Option<Arc<Qualified>>) -> Version {
        let release = VersionParts { major, minor, patch, pre: CowVec::new(), build: CowVec::new() };
        Version { release: ManuallyDrop::new(release), qualified }
    }

    /// The version of these parts. The call fails if an identifier is invalid.
    pub fn from_parts(parts: VersionParts) -> Result<Version, VersionParseError> {
        match Version::parse_valid(&parts.to_string()) {
            Some(version) if *version == parts => Ok(version),
            _ => {
                let message = "An identifier of a version is empty or has a character that none has.";
                Err(VersionParseError { source: ParseErrorFailureError::new(message, None) })
            }
        }
    }

    /// The sort key, for a column of a database: printable ASCII without whitespace. The bytes of two keys compare as their versions do by
    /// precedence. No key begins another, and the build has no part in the key.
    ///
    /// ```
    /// # use deno_semver_proved::Version;
    /// let version = Version::parse_standard("1.10.0-beta.2").unwrap();
    /// assert_eq!(version.sort_key(), "A1B10A0-$beta!#A22!!");
    /// ```
    pub fn sort_key(&self) -> String {
        let key = text_or_message(|out, needed| match self.qualified() {
            None => semver_key(&self.release.to_string(), out, needed),
            Some(qualified) => semver_version_key(qualified.handle(), out, needed),
        });
        key.expect("a version has a key")
    }

    /// The range that matches this version alone.
    pub fn into_req(self) -> VersionReq {
        VersionReq::parse_from_normalized(&self.to_string()).expect("a version is a range")
    }

    #[inline]
    pub(crate) fn numbers(&self) -> [u64; 3] {
        [self.release.major, self.release.minor, self.release.patch]
    }

    #[inline]
    pub(crate) fn qualified(&self) -> Option<&Qualified> {
        self.qualified.as_deref()
    }

    /// Whether it has a pre-release.
    #[inline]
    pub(crate) fn is_pre(&self) -> bool {
        self.qualified().is_some_and(|it| it.is_pre)
    }

    /// Whether a requirement that isn't a tag matches this version.
    #[inline]
    pub(crate) fn is_matched_by(&self, req: &Requirement, pre_release: PreRelease) -> bool {
        let [major, minor, patch] = self.numbers();
        let code = match &self.qualified {
            Some(qualified) if qualified.is_pre => qualified.is_matched_by(req, pre_release),
            _ => semver_req_matches_release(req, major, minor, patch),
        };
        answer(code) == Some(true)
    }
}

impl Clone for Version {
    #[inline]
    fn clone(&self) -> Version {
        Version::of(self.numbers(), self.qualified.clone())
    }
}

impl Deref for Version {
    type Target = VersionParts;

    #[inline]
    fn deref(&self) -> &VersionParts {
        match &self.qualified {
            None => &self.release,
            Some(qualified) => qualified.parts.get_or_init(|| own::version_parts(&qualified.text)),
        }
    }
}

impl Eq for Version {}

impl Hash for Version {
    fn hash<H: Hasher>(&self, state: &mut H) {
        self.numbers().hash(state);
        self.qualified().map(Qualified::as_str).hash(state);
    }
}

impl PartialOrd for Version {
    #[inline]
    fn partial_cmp(&self, other: &Version) -> Option<Ordering> {
        Some(self.cmp(other))
    }
}

display! {
    VersionParts: |it, f| {
        own::write_numbers([it.major, it.minor, it.patch], f)?;
        own::write_identifiers(&it.pre, &it.build, f)
    };
    Version: |it, f| match it.qualified() {
        None => own::write_numbers(it.numbers(), f),
        Some(qualified) => f.write_str(qualified.as_str()),
    };
}

impl fmt::Debug for Version {
    fn fmt(&self, f: &mut fmt::Formatter<'_>) -> fmt::Result {
        write!(f, "Version({self})")
    }
}

parse_error!(
    /// Why a string isn't a version.
    VersionParseError,
    "Invalid version"
);
