//! References to JSR packages, and the dependencies of one.

use crate::calls::Grammar;
use crate::error::{display, errors};
use crate::own;
use crate::package::{references, PackageKind, PackageReq, PackageReqParseError};
use crate::string::StackString;
use std::borrow::Cow;

pub use crate::own::normalized_export_name;

references! {
    Jsr:
    /// A reference to a JSR package, such as `jsr:@scope/name@^1.2/mod.ts`.
    #[derive(Clone, Debug, PartialEq, Eq, Hash)]
    JsrPackageReqReference(PackageReqReference), req: PackageReq, PackageReqReferenceParseError;
    /// A reference to one version of a JSR package, such as `jsr:@scope/name@1.2.3/mod.ts`.
    #[derive(Clone, Debug, PartialEq, Eq, PartialOrd, Ord, Hash)]
    JsrPackageNvReference(PackageNvReference), nv: PackageNv, PackageNvReferenceParseError;
}

impl JsrPackageReqReference {
    /// The name of the export that the path means.
    pub fn export_name(&self) -> Cow<'_, str> {
        normalized_export_name(self.sub_path())
    }
}

impl JsrPackageNvReference {
    /// The name of the export that the path means.
    pub fn export_name(&self) -> Cow<'_, str> {
        normalized_export_name(self.sub_path())
    }

    /// The reference as a URL.
    #[cfg(feature = "url")]
    pub fn as_specifier(&self) -> url::Url {
        self.0.as_specifier(PackageKind::Jsr)
    }
}

/// A dependency of a JSR package: a package of JSR or npm with a requirement, such as `npm:name@1`.
#[derive(Clone, Debug, PartialEq, Eq, PartialOrd, Ord, Hash)]
pub struct JsrDepPackageReq {
    /// The registry.
    pub kind: PackageKind,
    /// The package.
    pub req: PackageReq,
}

impl JsrDepPackageReq {
    /// A dependency on a package of JSR.
    pub fn jsr(req: PackageReq) -> JsrDepPackageReq {
        JsrDepPackageReq { kind: PackageKind::Jsr, req }
    }

    /// A dependency on a package of npm.
    pub fn npm(req: PackageReq) -> JsrDepPackageReq {
        JsrDepPackageReq { kind: PackageKind::Npm, req }
    }

    /// Parses a dependency with a requirement of the strict grammar.
    #[allow(clippy::should_implement_trait)]
    pub fn from_str(text: &str) -> Result<JsrDepPackageReq, JsrDepPackageReqParseError> {
        JsrDepPackageReq::parse(Grammar::Strict, text)
    }

    /// Parses a dependency with a requirement of npm's grammar.
    pub fn from_str_loose(text: &str) -> Result<JsrDepPackageReq, JsrDepPackageReqParseError> {
        JsrDepPackageReq::parse(Grammar::Npm, text)
    }

    /// Parses a dependency with a requirement of the normalized grammar.
    pub fn from_str_normalized(text: &str) -> Result<JsrDepPackageReq, JsrDepPackageReqParseError> {
        JsrDepPackageReq::parse(Grammar::Normalized, text)
    }

    fn parse(grammar: Grammar, text: &str) -> Result<JsrDepPackageReq, JsrDepPackageReqParseError> {
        let not_expected = |scheme: &str| JsrDepPackageReqParseError::NotExpectedScheme(scheme.to_owned());
        let (kind, package) = own::dependency_parts(text).map_err(not_expected)?;
        let req = PackageReq::parse(grammar, package).map_err(JsrDepPackageReqParseError::PackageReqParse)?;
        Ok(JsrDepPackageReq { kind, req })
    }

    /// The canonical form of the whole string, to be stored. It isn't a URL.
    pub fn to_string_normalized(&self) -> StackString {
        StackString::concat(&[self.kind.scheme_with_colon(), &self.req.name, "@", self.req.version_req.normalized()])
    }
}

display! {
    JsrDepPackageReq: |it, f| write!(f, "{}{}", it.kind.scheme_with_colon(), it.req);
}

/// Why a string isn't a dependency.
#[derive(Clone, PartialEq, Eq)]
pub enum JsrDepPackageReqParseError {
    /// The scheme is neither `jsr` nor `npm`. The field is the scheme, or the whole string if it has no scheme.
    NotExpectedScheme(String),
    /// The package is invalid.
    PackageReqParse(PackageReqParseError),
}

errors! {
    JsrDepPackageReqParseError: |it, f| match it {
        Self::NotExpectedScheme(scheme) => write!(f, "A dependency begins with 'npm:' or 'jsr:', and not with '{scheme}'"),
        Self::PackageReqParse(error) => error.fmt(f),
    }, match it {
        Self::NotExpectedScheme(_) => None,
        Self::PackageReqParse(error) => error.source(),
    };
}

impl From<PackageReqParseError> for JsrDepPackageReqParseError {
    fn from(error: PackageReqParseError) -> JsrDepPackageReqParseError {
        JsrDepPackageReqParseError::PackageReqParse(error)
    }
}
