//! The step from a version to another.

use crate::calls::{code_and_text, failed, NO, NO_INCREMENT, YES};
use crate::externs::{semver_coerce, semver_difference, semver_increment};
use crate::Version;

/// Which next version to make, or what changed between two versions.
#[derive(Clone, Copy, Debug, PartialEq, Eq)]
#[repr(u32)]
pub enum ReleaseType {
    /// The next major version.
    Major = 0,
    /// The next minor version.
    Minor = 1,
    /// The next patch.
    Patch = 2,
    /// A pre-release of the next major version.
    PreMajor = 3,
    /// A pre-release of the next minor version.
    PreMinor = 4,
    /// A pre-release of the next patch.
    PrePatch = 5,
    /// The next pre-release.
    PreRelease = 6,
    /// The release of a pre-release.
    Release = 7,
}

/// The number that a new pre-release gets after its identifiers.
#[derive(Clone, Copy, Debug, Default, PartialEq, Eq)]
#[repr(u32)]
pub enum Base {
    /// `0`.
    #[default]
    Zero = 0,
    /// `1`.
    One = 1,
    /// No number: `beta` gives `-beta`, and the next pre-release after it is `-beta.0`.
    Nothing = 2,
}

/// Which of the versions in a string [`Version::coerce`] returns.
#[derive(Clone, Copy, Debug, Default, PartialEq, Eq)]
#[repr(u32)]
pub enum Coerced {
    /// The first.
    #[default]
    First = 0,
    /// The one that ends last.
    Last = 1,
}

/// Why there is no next version.
#[derive(Clone, PartialEq, Eq)]
pub struct IncrementError {
    /// What is wrong, in one line.
    pub message: String,
}

crate::error::errors! {
    IncrementError: |it, f| f.write_str(&it.message);
}

fn coerced(text: &str, which: Coerced, pre_releases: bool) -> Option<Version> {
    match code_and_text(|out, needed| semver_coerce(which as u32, text, pre_releases.into(), out, needed)) {
        (YES, version) => Version::parse_valid(&version),
        (NO, _) => None,
        (code, _) => failed(code),
    }
}

impl Version {
    /// The next major, minor, patch or pre-release version, without a build. A new pre-release begins with `identifiers`, separated by `.`;
    /// then comes the number of `base`. [`ReleaseType::PreRelease`] raises the last number of a pre-release, if the pre-release begins with
    /// the identifiers and goes on with a number, or if you give no identifiers.
    ///
    /// After a pre-release, the next release may be its own. A pre-release that gets other identifiers may come before the version that you
    /// raise.
    ///
    /// ```
    /// use deno_semver_proved::{Base, ReleaseType, Version};
    ///
    /// let version = Version::parse_standard("1.2.3")?;
    /// let beta = version.increment(ReleaseType::PreMinor, "beta", Base::Zero)?;
    /// assert_eq!(beta.to_string(), "1.3.0-beta.0");
    /// # Ok::<(), Box<dyn std::error::Error>>(())
    /// ```
    pub fn increment(&self, release_type: ReleaseType, identifiers: &str, base: Base) -> Result<Version, IncrementError> {
        let text = self.to_string();
        let call =
            |out: &mut _, needed: &mut _| semver_increment(release_type as u32, &text, identifiers, base as u32, out, needed);
        match code_and_text(call) {
            (YES, next) => Ok(Version::parse_valid(&next).expect("the text of a version is one")),
            (NO_INCREMENT, message) => Err(IncrementError { message }),
            (code, _) => failed(code),
        }
    }

    /// The version that a string holds: one to three numbers with a `.` between neighbours. A missing number is 0. None if no number in the
    /// string fits in a `u64`.
    ///
    /// ```
    /// use deno_semver_proved::{Coerced, Version};
    ///
    /// let text = "v3.4 replaces 3.3.1";
    /// assert_eq!(Version::coerce(text, Coerced::First).unwrap().to_string(), "3.4.0");
    /// assert_eq!(Version::coerce(text, Coerced::Last).unwrap().to_string(), "3.3.1");
    /// ```
    pub fn coerce(text: &str, which: Coerced) -> Option<Version> {
        coerced(text, which, false)
    }

    /// Like [`Version::coerce`], but the version also gets the pre-release and the build that come right behind its numbers.
    ///
    /// ```
    /// use deno_semver_proved::{Coerced, Version};
    ///
    /// assert_eq!(Version::coerce_whole("release-1.2-rc.1", Coerced::First).unwrap().to_string(), "1.2.0-rc.1");
    /// ```
    pub fn coerce_whole(text: &str, which: Coerced) -> Option<Version> {
        coerced(text, which, true)
    }

    /// What changed between two versions, whichever is the higher one; none if they have the same precedence.
    ///
    /// ```
    /// use deno_semver_proved::{ReleaseType, Version};
    ///
    /// let [one, other] = ["1.2.3", "1.3.0-rc.1"].map(|text| Version::parse_standard(text).unwrap());
    /// assert_eq!(one.difference(&other), Some(ReleaseType::PreMinor));
    /// ```
    pub fn difference(&self, other: &Version) -> Option<ReleaseType> {
        use ReleaseType::*;
        const ALL: [ReleaseType; 8] = [Major, Minor, Patch, PreMajor, PreMinor, PrePatch, PreRelease, Release];
        let code = semver_difference(&self.to_string(), &other.to_string(), &mut 0);
        ALL.get(usize::try_from(code).unwrap_or_else(|_| failed(code))).copied()
    }
}
