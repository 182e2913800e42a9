//! Partial versions, such as `1.2.*`, and the ranges that they mean in a requirement. For each such range, this module writes a string and
//! the proved library parses it.

use crate::calls::Grammar;
use crate::error::display;
use crate::own::write_identifiers;
use crate::range::{RangeBound, VersionBoundKind, VersionRange};
use crate::version::VersionPreOrBuild;
use crate::version_req::VersionReq;
use crate::CowVec;

/// A number of a partial version, or any number.
#[derive(Clone, Copy, Debug, PartialEq, Eq)]
pub enum XRange {
    /// Any number.
    Wildcard,
    /// This number.
    Val(u64),
}

display! {
    XRange: |it, f| match it {
        XRange::Wildcard => f.write_str("*"),
        XRange::Val(number) => number.fmt(f),
    };
    Partial: |it, f| {
        write!(f, "{}.{}.{}", it.major, it.minor, it.patch)?;
        write_identifiers(&it.pre, &it.build, f)
    };
}

/// A version whose numbers may be left open. Its methods panic if a bound needs a number that is too large for a `u64`.
#[derive(Clone, Debug, PartialEq, Eq)]
pub struct Partial {
    /// The first number.
    pub major: XRange,
    /// The second number.
    pub minor: XRange,
    /// The third number.
    pub patch: XRange,
    /// The identifiers of the pre-release.
    pub pre: CowVec<VersionPreOrBuild>,
    /// The identifiers of the build.
    pub build: CowVec<VersionPreOrBuild>,
}

/// The only range of a string.
fn range(grammar: Grammar, text: &str) -> VersionRange {
    let req = VersionReq::parse(grammar, text).unwrap_or_else(|error| panic!("{text}: {}", error.message));
    match req.range() {
        // A range that ends below 0.0.0 is dropped.
        Some(ranges) => ranges.0.first().cloned().unwrap_or_else(VersionRange::none),
        None => panic!("{text}: Version bound is too large."),
    }
}

impl Partial {
    /// The range that this partial version means after `~`.
    pub fn as_tilde_version_range(&self) -> VersionRange {
        range(Grammar::Strict, &format!("~{self}"))
    }

    /// The range that this partial version means after `^`.
    pub fn as_caret_version_range(&self) -> VersionRange {
        range(Grammar::Strict, &format!("^{self}"))
    }

    /// The range that this partial version means alone.
    pub fn as_equal_range(&self) -> VersionRange {
        range(Grammar::Strict, &self.to_string())
    }

    /// The range that this partial version means after `>=` or `>`.
    pub fn as_greater_than(&self, start_kind: VersionBoundKind) -> VersionRange {
        let equals = if start_kind == VersionBoundKind::Inclusive { "=" } else { "" };
        range(Grammar::Normalized, &format!(">{equals}{self}"))
    }

    /// The range that this partial version means after `<=` or `<`.
    pub fn as_less_than(&self, end_kind: VersionBoundKind) -> VersionRange {
        let equals = if end_kind == VersionBoundKind::Inclusive { "=" } else { "" };
        range(Grammar::Normalized, &format!("<{equals}{self}"))
    }

    /// The range that this partial version means alone, without its pre-release and build. If you ask for an exclusive start, the end is
    /// exclusive too.
    pub fn as_greater_range(&self, start_kind: VersionBoundKind) -> VersionRange {
        let range = Partial { pre: CowVec::new(), build: CowVec::new(), ..*self }.as_equal_range();
        let of_kind = |bound: RangeBound| match bound {
            RangeBound::Version(bound) if start_kind == VersionBoundKind::Exclusive => RangeBound::exclusive(bound.version),
            bound => bound,
        };
        VersionRange { start: of_kind(range.start), end: of_kind(range.end) }
    }

    /// The start of a range whose lower end is this partial version.
    pub fn as_lower_bound(&self) -> RangeBound {
        range(Grammar::Npm, &format!("{self} - *")).start
    }

    /// The end of a range whose upper end is this partial version.
    pub fn as_upper_bound(&self) -> RangeBound {
        range(Grammar::Npm, &format!("* - {self}")).end
    }
}
