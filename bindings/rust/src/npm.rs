//! npm's grammars, and references to npm packages.

use crate::calls::YES;
use crate::error::parse_error;
use crate::externs::semver_may_be_tag;
use crate::package::references;
use crate::version::Version;
use crate::version_req::VersionReq;

/// Parses a version by npm's grammar.
pub fn parse_npm_version(text: &str) -> Result<Version, NpmVersionParseError> {
    Version::parse_from_npm(text)
}

/// Parses a requirement by npm's grammar.
pub fn parse_npm_version_req(text: &str) -> Result<VersionReq, NpmVersionReqParseError> {
    VersionReq::parse_from_npm(text)
}

/// Whether the string can be a tag, by npm's rules.
pub fn is_valid_npm_tag(value: &str) -> bool {
    semver_may_be_tag(value) == YES
}

parse_error!(
    /// Why a string isn't a version by npm's grammar.
    NpmVersionParseError,
    "Invalid npm version"
);
parse_error!(
    /// Why a string isn't a requirement by npm's grammar.
    NpmVersionReqParseError,
    "Invalid version requirement"
);

references! {
    Npm:
    /// A reference to an npm package, such as `npm:name@^1.2/path`.
    #[derive(Clone, Debug, PartialEq, Eq, Hash)]
    NpmPackageReqReference(PackageReqReference), req: PackageReq, PackageReqReferenceParseError;
    /// A reference to one version of an npm package, such as `npm:name@1.2.3/path`.
    #[derive(Clone, Debug, PartialEq, Eq, PartialOrd, Ord, Hash)]
    NpmPackageNvReference(PackageNvReference), nv: PackageNv, PackageNvReferenceParseError;
}

#[cfg(feature = "url")]
impl NpmPackageNvReference {
    /// The reference as a URL.
    pub fn as_specifier(&self) -> url::Url {
        self.0.as_specifier(crate::package::PackageKind::Npm)
    }
}
