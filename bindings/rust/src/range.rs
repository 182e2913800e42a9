//! The ranges of a requirement, as values that callers take apart and build. `own` has their rules.

use crate::string::StackString;
use crate::version::Version;
use crate::CowVec;

/// A name that a registry gives a version.
pub type PackageTag = StackString;

/// Whether a bound includes its version.
#[derive(Clone, Copy, Debug, PartialEq, Eq, Hash)]
#[cfg_attr(feature = "serde", derive(serde::Serialize, serde::Deserialize))]
pub enum VersionBoundKind {
    /// It does.
    Inclusive,
    /// It doesn't.
    Exclusive,
}

/// A version at an end of a range.
#[derive(Clone, Debug, PartialEq, Eq, Hash)]
#[cfg_attr(feature = "serde", derive(serde::Serialize, serde::Deserialize))]
pub struct VersionBound {
    /// Whether the version is in the range.
    pub kind: VersionBoundKind,
    /// The version.
    pub version: Version,
}

impl VersionBound {
    /// A bound of this kind, at this version.
    pub fn new(kind: VersionBoundKind, version: Version) -> VersionBound {
        VersionBound { kind, version }
    }
}

/// An end of a range.
#[derive(Clone, Debug, PartialEq, Eq, Hash)]
#[cfg_attr(feature = "serde", derive(serde::Serialize, serde::Deserialize))]
pub enum RangeBound {
    /// The range ends at a version.
    Version(VersionBound),
    /// The range has no end on this side.
    Unbounded,
}

impl RangeBound {
    /// A bound that includes its version.
    pub fn inclusive(version: Version) -> RangeBound {
        RangeBound::version(VersionBoundKind::Inclusive, version)
    }

    /// A bound that excludes its version.
    pub fn exclusive(version: Version) -> RangeBound {
        RangeBound::version(VersionBoundKind::Exclusive, version)
    }

    /// A bound of this kind, at this version.
    pub fn version(kind: VersionBoundKind, version: Version) -> RangeBound {
        RangeBound::Version(VersionBound::new(kind, version))
    }
}

/// The versions from a start to an end.
#[derive(Clone, Debug, PartialEq, Eq, Hash)]
#[cfg_attr(feature = "serde", derive(serde::Serialize, serde::Deserialize))]
pub struct VersionRange {
    /// Where it starts.
    pub start: RangeBound,
    /// Where it ends.
    pub end: RangeBound,
}

impl VersionRange {
    /// The range without bounds.
    pub fn all() -> VersionRange {
        VersionRange { start: RangeBound::Unbounded, end: RangeBound::Unbounded }
    }

    /// A range that matches nothing.
    pub fn none() -> VersionRange {
        VersionRange { start: RangeBound::inclusive(Version::default()), end: RangeBound::exclusive(Version::default()) }
    }
}

/// Several ranges. A version matches the set if it matches one of them.
#[derive(Clone, Debug, PartialEq, Eq, Hash)]
#[cfg_attr(feature = "serde", derive(serde::Serialize, serde::Deserialize))]
pub struct VersionRangeSet(pub CowVec<VersionRange>);

/// What a requirement asks for: versions that some ranges match, or the version with a tag.
#[derive(Clone, Debug, PartialEq, Eq, Hash)]
pub enum RangeSetOrTag {
    /// Ranges.
    RangeSet(VersionRangeSet),
    /// A tag.
    Tag(PackageTag),
}
