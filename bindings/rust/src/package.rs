//! Packages with a requirement or a version, and references to them.
//!
//! This module splits off the name and the path, in Rust, and the proved library parses the requirement and the version. The library's own
//! calls for whole packages ([`json`]) return the same parts as JSON.

use crate::calls::Grammar;
use crate::error::{display, errors, ParseErrorFailureError, Place};
use crate::externs::{semver_package_errors, semver_reference_errors};
use crate::json::first_error;
use crate::npm::NpmVersionReqParseError;
use crate::own::{self, PackageParts};
use crate::string::{SmallStackString, StackString};
use crate::version::Version;
use crate::version_req::{VersionReq, VersionReqNormalizedParseError, VersionReqSpecifierParseError};
use crate::WILDCARD_VERSION_REQ;
use std::cmp::Ordering;
use std::fmt;

/// The name of a package, its scope included.
pub type PackageName = StackString;

/// The path after a package.
pub type PackageSubPath = SmallStackString;

/// The registry of a package.
#[derive(Clone, Copy, Debug, PartialEq, Eq, PartialOrd, Ord, Hash)]
pub enum PackageKind {
    /// JSR.
    Jsr,
    /// npm.
    Npm,
}

impl PackageKind {
    /// `jsr:` or `npm:`.
    pub fn scheme_with_colon(self) -> &'static str {
        match self {
            PackageKind::Jsr => "jsr:",
            PackageKind::Npm => "npm:",
        }
    }
}

/// A package and a requirement for its version. The name includes the scope.
///
/// The order is by name, and a tag comes before ranges. Of two ranges, the one with the higher start comes first, and then the one with the
/// lower end, so that a requirement that leaves fewer versions comes first.
#[derive(Clone, Debug, PartialEq, Eq, Hash)]
pub struct PackageReq {
    /// The name, such as `@scope/name`.
    pub name: PackageName,
    /// What its version has to be.
    pub version_req: VersionReq,
}

impl PackageReq {
    /// Parses a package with a requirement of the strict grammar.
    #[allow(clippy::should_implement_trait)]
    pub fn from_str(text: &str) -> Result<PackageReq, PackageReqParseError> {
        PackageReq::parse(Grammar::Strict, text)
    }

    /// Parses a package with a requirement of npm's grammar.
    pub fn from_str_loose(text: &str) -> Result<PackageReq, PackageReqParseError> {
        PackageReq::parse(Grammar::Npm, text)
    }

    /// Parses a package with a requirement of the normalized grammar.
    pub fn from_str_normalized(text: &str) -> Result<PackageReq, PackageReqParseError> {
        PackageReq::parse(Grammar::Normalized, text)
    }

    pub(crate) fn parse(grammar: Grammar, text: &str) -> Result<PackageReq, PackageReqParseError> {
        let source = match PackageReq::parse_with_path(grammar, text) {
            Ok((req, "")) => return Ok(req),
            _ if !text.starts_with('@') && text.contains('/') => PackageReqPartsParseError::MissingAtSymbol,
            Ok((_, path)) => PackageReqPartsParseError::path(path),
            Err(error) => error,
        };
        Err(PackageReqParseError { text: text.to_owned(), source, grammar })
    }

    fn parse_with_path(grammar: Grammar, text: &str) -> Result<(PackageReq, &str), PackageReqPartsParseError> {
        let PackageParts { name, requirement, path } = own::package_parts(text)?;
        let version_req = match requirement {
            Some(text) => {
                VersionReq::parse(grammar, text).map_err(|source| PackageReqPartsParseError::requirement(grammar, source))?
            }
            None => WILDCARD_VERSION_REQ.clone(),
        };
        Ok((PackageReq { name: name.into(), version_req }, path))
    }

    /// `name@requirement`, with the canonical form of the requirement, to be stored.
    pub fn to_string_normalized(&self) -> StackString {
        StackString::concat(&[&self.name, "@", self.version_req.normalized()])
    }
}

impl PartialOrd for PackageReq {
    fn partial_cmp(&self, other: &PackageReq) -> Option<Ordering> {
        Some(self.cmp(other))
    }
}

impl Ord for PackageReq {
    fn cmp(&self, other: &PackageReq) -> Ordering {
        self.name.cmp(&other.name).then_with(|| self.version_req.order(&other.version_req))
    }
}

/// A package with a requirement, and a path in it.
#[derive(Clone, Debug, PartialEq, Eq, Hash)]
pub struct PackageReqReference {
    /// The package.
    pub req: PackageReq,
    /// The path after it.
    pub sub_path: Option<PackageSubPath>,
}

impl PackageReqReference {
    pub(crate) fn parse(specifier: &str, kind: PackageKind) -> Result<PackageReqReference, PackageReqReferenceParseError> {
        let Some(text) = specifier.strip_prefix(kind.scheme_with_colon()) else {
            return Err(PackageReqReferenceParseError::NotExpectedScheme(kind));
        };
        let (req, path) = PackageReq::parse_with_path(Grammar::Strict, text).map_err(|source| {
            let specifier = specifier.to_owned();
            PackageReqReferenceParseError::Invalid(Box::new(PackageReqReferenceInvalidParseError { specifier, source }))
        })?;
        match own::reference_path(path, req.version_req.version_text() != "*") {
            Ok(path) => Ok(PackageReqReference { req, sub_path: path.map(PackageSubPath::from) }),
            Err((version, before)) => {
                let (current, suggested) = (format!("{req}/{path}"), format!("{req}@{version}/{before}"));
                let error = PackageReqReferenceInvalidWithVersionParseError { kind, current, suggested };
                Err(PackageReqReferenceParseError::InvalidPathWithVersion(Box::new(error)))
            }
        }
    }
}

/// A package with a version. The name includes the scope.
#[derive(Clone, PartialEq, Eq, PartialOrd, Ord, Hash)]
pub struct PackageNv {
    /// The name, such as `@scope/name`.
    pub name: PackageName,
    /// The version.
    pub version: Version,
}

impl PackageNv {
    /// Parses a package with a version, such as `@scope/name@1.2.3`.
    #[allow(clippy::should_implement_trait)]
    pub fn from_str(text: &str) -> Result<PackageNv, PackageNvParseError> {
        match PackageNv::parse(text) {
            Some((nv, "")) => Ok(nv),
            _ => Err(PackageNvParseError { message: message(json::name_with_version(text)), text: text.to_owned() }),
        }
    }

    fn parse(text: &str) -> Option<(PackageNv, &str)> {
        let (name, version, rest) = own::name_with_version(text)?;
        let version = Version::parse_valid(version)?;
        Some((PackageNv { name: name.into(), version }, rest))
    }

    /// The scope with its `@`, if the name has one.
    pub fn scope(&self) -> Option<&str> {
        own::scope(&self.name)
    }

    /// The package with the requirement that matches this version alone.
    pub fn into_req(self) -> PackageReq {
        PackageReq { name: self.name, version_req: self.version.into_req() }
    }
}

// The message of the library for a string that it rejects.
fn message(parts: Result<String, String>) -> String {
    parts.err().unwrap_or_else(|| "Unexpected character.".to_owned())
}

impl fmt::Debug for PackageNv {
    fn fmt(&self, f: &mut fmt::Formatter<'_>) -> fmt::Result {
        fmt::Display::fmt(self, f)
    }
}

/// A package with a version, and a path in it.
#[derive(Clone, Debug, PartialEq, Eq, PartialOrd, Ord, Hash)]
pub struct PackageNvReference {
    /// The package.
    pub nv: PackageNv,
    /// The path after it.
    pub sub_path: Option<PackageSubPath>,
}

impl PackageNvReference {
    pub(crate) fn parse(specifier: &str, kind: PackageKind) -> Result<PackageNvReference, PackageNvReferenceParseError> {
        PackageNvReference::parse_parts(specifier, kind).ok_or_else(|| {
            let message = message(json::version_reference(specifier));
            PackageNvReferenceParseError { message, text: specifier.to_owned() }
        })
    }

    fn parse_parts(specifier: &str, kind: PackageKind) -> Option<PackageNvReference> {
        let text = specifier.strip_prefix(kind.scheme_with_colon())?;
        let (nv, rest) = PackageNv::parse(text.strip_prefix('/').unwrap_or(text))?;
        Some(PackageNvReference { nv, sub_path: own::version_reference_path(rest)?.map(PackageSubPath::from) })
    }

    #[cfg(feature = "url")]
    pub(crate) fn as_specifier(&self, kind: PackageKind) -> url::Url {
        let text = format!("{}/{self}", kind.scheme_with_colon());
        url::Url::parse(&text).expect("a scheme and a path are a URL")
    }
}

display! {
    // Without the requirement `*`.
    PackageReq: |it, f| match it.version_req.version_text() {
        "*" => f.write_str(&it.name),
        text => write!(f, "{}@{text}", it.name),
    };
    PackageReqReference: |it, f| write_with_path(&it.req, &it.sub_path, f);
    PackageNv: |it, f| write!(f, "{}@{}", it.name, it.version);
    PackageNvReference: |it, f| write_with_path(&it.nv, &it.sub_path, f);
}

fn write_with_path(package: &impl fmt::Display, path: &Option<PackageSubPath>, f: &mut fmt::Formatter<'_>) -> fmt::Result {
    match path {
        Some(path) => write!(f, "{package}/{path}"),
        None => package.fmt(f),
    }
}

/// The proved calls for whole packages, which return the parts as JSON or an error message. They are slower than the types.
pub mod json {
    use crate::calls::text_or_message;
    use crate::externs::*;
    use crate::Grammar;

    /// A package with a requirement: "name", "normal", "requirement", "scope".
    pub fn package(grammar: Grammar, text: &str) -> Result<String, String> {
        text_or_message(|out, needed| semver_package(grammar as u32, text, out, needed))
    }

    /// A reference to a package: "export", "kind", "package", "path".
    pub fn reference(text: &str) -> Result<String, String> {
        text_or_message(|out, needed| semver_reference(text, out, needed))
    }

    /// A package with a version: "name", "scope", "version".
    pub fn name_with_version(text: &str) -> Result<String, String> {
        text_or_message(|out, needed| semver_name_with_version(text, out, needed))
    }

    /// A reference to one version of a package: "export", "kind", "package", "path".
    pub fn version_reference(text: &str) -> Result<String, String> {
        text_or_message(|out, needed| semver_version_reference(text, out, needed))
    }

    /// A dependency: "kind", "normal", "package".
    pub fn dependency(grammar: Grammar, text: &str) -> Result<String, String> {
        text_or_message(|out, needed| semver_dependency(grammar as u32, text, out, needed))
    }
}

/// What is wrong with the string of a package.
#[derive(Clone, PartialEq, Eq)]
pub enum PackageReqPartsParseError {
    /// The name is empty.
    NoPackageName,
    /// There is a scope and no name.
    InvalidPackageName,
    /// There is a `/`, and the string doesn't begin with `@`.
    MissingAtSymbol,
    /// The requirement is invalid, by the strict grammar, or a path follows it.
    SpecifierVersionReq(VersionReqSpecifierParseError),
    /// The requirement is invalid, by npm's grammar.
    NpmVersionReq(NpmVersionReqParseError),
    /// The requirement is invalid, by the normalized grammar.
    NormalizedVersionReq(VersionReqNormalizedParseError),
}

impl PackageReqPartsParseError {
    fn requirement(grammar: Grammar, source: ParseErrorFailureError) -> PackageReqPartsParseError {
        match grammar {
            Grammar::Strict => Self::SpecifierVersionReq(VersionReqSpecifierParseError { source }),
            Grammar::Npm => Self::NpmVersionReq(NpmVersionReqParseError { source }),
            Grammar::Normalized => Self::NormalizedVersionReq(VersionReqNormalizedParseError { source }),
        }
    }

    fn path(path: &str) -> PackageReqPartsParseError {
        let source = ParseErrorFailureError::new("Unexpected character '/'", Some(format!("/{path}")));
        Self::SpecifierVersionReq(VersionReqSpecifierParseError { source })
    }

    /// What is wrong, in one line.
    pub fn message(&self) -> &str {
        match self {
            Self::NoPackageName => "Did not contain a package name.",
            Self::InvalidPackageName => "Did not contain a valid package name.",
            Self::MissingAtSymbol => "Packages in the format <scope>/<name> must start with an '@' symbol.",
            Self::SpecifierVersionReq(error) => error.message(),
            Self::NpmVersionReq(error) => error.message(),
            Self::NormalizedVersionReq(error) => error.message(),
        }
    }
}

/// Why a string isn't a package with a requirement.
#[derive(Clone, PartialEq, Eq)]
pub struct PackageReqParseError {
    /// The string.
    pub text: String,
    /// What is wrong with it.
    pub source: PackageReqPartsParseError,
    // That of its requirement.
    grammar: Grammar,
}

impl PackageReqParseError {
    /// What is wrong, in one line.
    pub fn message(&self) -> &str {
        self.source.message()
    }

    /// Where the string is invalid: in its requirement, at a part that is missing, or at a path.
    ///
    /// ```
    /// use deno_semver_proved::package::PackageReq;
    ///
    /// let place = PackageReq::from_str("@scope").unwrap_err().place().unwrap();
    /// assert_eq!((place.start, place.expected), (6, vec!["/".to_string()]));
    /// ```
    pub fn place(&self) -> Option<Place> {
        first_error(|out, needed| semver_package_errors(self.grammar as u32, &self.text, out, needed))
    }
}

/// Why a string isn't a reference to a package.
#[derive(Clone, PartialEq, Eq)]
pub enum PackageReqReferenceParseError {
    /// The string doesn't begin with this scheme.
    NotExpectedScheme(PackageKind),
    /// The package is invalid.
    Invalid(Box<PackageReqReferenceInvalidParseError>),
    /// The path has a version, and the package has none.
    InvalidPathWithVersion(Box<PackageReqReferenceInvalidWithVersionParseError>),
}

/// A reference whose package is invalid.
#[derive(Clone, PartialEq, Eq)]
pub struct PackageReqReferenceInvalidParseError {
    /// The string.
    pub specifier: String,
    /// What is wrong with it.
    pub source: PackageReqPartsParseError,
}

impl PackageReqReferenceInvalidParseError {
    /// Where the string is invalid, as for [`PackageReqParseError::place`].
    pub fn place(&self) -> Option<Place> {
        first_error(|out, needed| semver_reference_errors(&self.specifier, out, needed))
    }
}

/// A reference whose version is in its path.
#[derive(Clone, PartialEq, Eq)]
pub struct PackageReqReferenceInvalidWithVersionParseError {
    /// The registry.
    pub kind: PackageKind,
    /// What you wrote, without the scheme.
    pub current: String,
    /// What you may have meant.
    pub suggested: String,
}

impl PackageReqReferenceInvalidWithVersionParseError {
    /// Where the version stands in the reference with its scheme.
    pub fn place(&self) -> Option<Place> {
        let text = format!("{}{}", self.kind.scheme_with_colon(), self.current);
        first_error(|out, needed| semver_reference_errors(&text, out, needed))
    }
}

errors! {
    PackageReqPartsParseError: |it, f| match it {
        Self::SpecifierVersionReq(error) => error.fmt(f),
        Self::NpmVersionReq(error) => error.fmt(f),
        Self::NormalizedVersionReq(error) => error.fmt(f),
        _ => f.write_str(it.message()),
    }, match it {
        Self::SpecifierVersionReq(error) => error.source(),
        Self::NpmVersionReq(error) => error.source(),
        Self::NormalizedVersionReq(error) => error.source(),
        _ => None,
    };
    PackageReqParseError: |it, f| write!(f, "Invalid package requirement '{}'", it.text), Some(&it.source);
    PackageReqReferenceParseError: |it, f| match it {
        Self::NotExpectedScheme(kind) => write!(f, "Not {} specifier", kind.scheme_with_colon()),
        Self::Invalid(error) => error.fmt(f),
        Self::InvalidPathWithVersion(error) => error.fmt(f),
    }, match it {
        Self::Invalid(error) => error.source(),
        _ => None,
    };
    PackageReqReferenceInvalidParseError: |it, f| write!(f, "Invalid package specifier '{}'", it.specifier), Some(&it.source);
    PackageReqReferenceInvalidWithVersionParseError: |it, f| {
        let scheme = it.kind.scheme_with_colon();
        write!(f, "The version stands in the path of '{scheme}{}'; write '{scheme}{}', ", it.current, it.suggested)?;
        f.write_str("or add a version requirement to the package.")
    };
}

macro_rules! version_error {
    ($(#[$doc:meta])* $name:ident, $line:literal) => {
        $(#[$doc])*
        #[derive(Clone, PartialEq, Eq)]
        pub struct $name {
            /// What is wrong, in one line.
            pub message: String,
            /// The string.
            pub text: String,
        }

        errors!($name: |it, f| write!(f, "{} '{}'. {}", $line, it.text, it.message););
    };
}

version_error!(
    /// Why a string isn't a package with a version.
    PackageNvParseError,
    "Invalid package name and version"
);
version_error!(
    /// Why a string isn't a reference to a package with a version.
    PackageNvReferenceParseError,
    "Invalid package name and version reference"
);

/// Defines references of a registry: each one's parts, the package among them, and the error of parsing it.
macro_rules! references {
    ($kind:ident: $($(#[$doc:meta])* $name:ident($parts:ident), $package:ident: $type:ident, $error:ident;)*) => {$(
        $(#[$doc])*
        pub struct $name(pub $crate::package::$parts);

        impl $name {
            /// The reference of these parts.
            pub fn new(inner: $crate::package::$parts) -> $name {
                $name(inner)
            }

            /// Parses a reference that is a URL, such as a `url::Url`.
            pub fn from_specifier(specifier: &impl AsRef<str>) -> Result<$name, $crate::package::$error> {
                $name::from_str(specifier.as_ref())
            }

            /// Parses a reference. A requirement in it has the strict grammar.
            #[allow(clippy::should_implement_trait)]
            pub fn from_str(specifier: &str) -> Result<$name, $crate::package::$error> {
                $crate::package::$parts::parse(specifier, $crate::package::PackageKind::$kind).map($name)
            }

            /// The package.
            pub fn $package(&self) -> &$crate::package::$type {
                &self.0.$package
            }

            /// The path after the package.
            pub fn sub_path(&self) -> Option<&str> {
                self.0.sub_path.as_deref()
            }

            /// The parts.
            pub fn into_inner(self) -> $crate::package::$parts {
                self.0
            }
        }

        $crate::error::display!($name: |it, f| write!(f, "{}{}", $crate::package::PackageKind::$kind.scheme_with_colon(), it.0););
    )*};
}

pub(crate) use references;
