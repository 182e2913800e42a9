// SPDX-License-Identifier: MIT

//! Versions and version requirements of npm and JSR packages. The types have the same paths as in the crate `deno_semver`; proved code
//! gives the answers. A *requirement* is a range or a tag; other pages call it a range.
//!
//! ```
//! use deno_semver_proved::{Version, VersionReq};
//!
//! let req = VersionReq::parse_from_npm(">=1.2 <2 || 3")?;
//! assert!(req.matches(&Version::parse_standard("1.3.0")?));
//! assert_eq!(req.to_string_normalized(), "^1.2.0 || 3");
//! # Ok::<(), Box<dyn std::error::Error>>(())
//! ```
//!
//! Running out of memory ends the program, as elsewhere in Rust. The features `serde` and `url` add what needs these crates.

#![warn(missing_docs, clippy::undocumented_unsafe_blocks)]
#![deny(unsafe_code)]

mod calls;
mod cow_vec;
mod error;
pub mod explain;
#[allow(unsafe_code)] // where `raw::calls` expands
mod externs;
mod json;
pub mod jsr;
pub mod lists;
pub mod lowest;
pub mod npm;
mod own;
pub mod package;
mod partial;
mod range;
#[allow(unsafe_code)]
mod raw;
mod scan;
#[cfg(feature = "serde")]
mod serde;
mod step;
mod string;
mod version;
mod version_req;

pub use calls::{Grammar, PreRelease};
pub use cow_vec::CowVec;
pub use error::{ParseErrorFailureError, Place};
pub use partial::{Partial, XRange};
pub use range::{PackageTag, RangeBound, RangeSetOrTag, VersionBound, VersionBoundKind, VersionRange, VersionRangeSet};
pub use scan::Scan;
pub use step::{Base, Coerced, IncrementError, ReleaseType};
pub use string::{SmallStackString, StackString};
pub use version::{Version, VersionParseError, VersionParts, VersionPreOrBuild};
pub use version_req::{VersionReq, VersionReqNormalizedParseError, VersionReqSpecifierParseError};

use std::sync::LazyLock;

/// The requirement `*`, which matches every release.
pub static WILDCARD_VERSION_REQ: LazyLock<VersionReq> =
    LazyLock::new(|| VersionReq::parse_from_specifier("*").expect("`*` is a range"));

/// Which of several ranges is invalid, and why.
#[derive(Clone, PartialEq, Eq)]
pub struct InvalidRange {
    /// Which range it is, counted from 0.
    pub place: usize,
    /// What is wrong, in one line.
    pub message: String,
}

error::errors! {
    InvalidRange: |it, f| write!(f, "Invalid range {}: {}", it.place + 1, it.message);
}

/// The examples of the README.
#[cfg(doctest)]
#[doc = include_str!("../README.md")]
struct Readme;

/// Callers can't reach a handle, so they can't reach an empty one.
///
/// ```compile_fail,E0603
/// let handle: Option<deno_semver_proved::raw::Requirement> = None;
/// ```
#[cfg(doctest)]
struct Handles;
