//! Why a string is invalid.

use crate::calls::{failed, Grammar, YES};
use crate::externs::{semver_errors, semver_version_error};
use crate::json;
use std::error::Error;
use std::fmt;

/// How values are displayed.
macro_rules! display {
    ($($name:ty: |$it:ident, $f:ident| $display:expr;)*) => {$(
        impl std::fmt::Display for $name {
            fn fmt(&self, $f: &mut std::fmt::Formatter<'_>) -> std::fmt::Result {
                #[allow(unused_variables)]
                let $it = self;
                $display
            }
        }
    )*};
}

/// How errors are displayed, and what their sources are. `main` prints an error by `Debug`, which thus writes it for a person.
macro_rules! errors {
    ($($name:ty: |$it:ident, $f:ident| $display:expr $(, $source:expr)?;)*) => {$(
        $crate::error::display!($name: |$it, $f| $display;);

        impl std::fmt::Debug for $name {
            fn fmt(&self, f: &mut std::fmt::Formatter<'_>) -> std::fmt::Result {
                $crate::error::explain(self, f)
            }
        }

        impl std::error::Error for $name {
            $(fn source(&self) -> Option<&(dyn std::error::Error + 'static)> {
                let $it = self;
                $source
            })?
        }
    )*};
}

/// Defines an error that is displayed as a fixed line, and whose source is a [`ParseErrorFailureError`].
macro_rules! parse_error {
    ($(#[$doc:meta])* $name:ident, $line:literal) => {
        $(#[$doc])*
        #[derive(Clone, PartialEq, Eq)]
        pub struct $name {
            /// What is wrong with the string.
            pub source: $crate::ParseErrorFailureError,
        }

        impl $name {
            /// What is wrong, in one line.
            pub fn message(&self) -> &str {
                &self.source.message
            }
        }

        $crate::error::errors!($name: |it, f| f.write_str($line), Some(&it.source););
    };
}

pub(crate) use {display, errors, parse_error};

/// Writes an error and its causes on a line, and below it the string with a mark at the place where it goes wrong, if that is known.
pub(crate) fn explain(error: &(dyn Error + 'static), f: &mut fmt::Formatter<'_>) -> fmt::Result {
    if let Some(failure) = error.downcast_ref::<ParseErrorFailureError>() {
        return failure.write_with_mark(f);
    }
    write!(f, "{error}")?;
    error.source().map_or(Ok(()), |cause| {
        f.write_str(": ")?;
        explain(cause, f)
    })
}

/// Where a string is invalid, by indexes of its bytes, and what could be there.
#[derive(Clone, Debug, PartialEq, Eq)]
pub struct Place {
    /// The index at which the string goes wrong.
    pub start: usize,
    /// The index at which the invalid alternative of a requirement, or the version, ends.
    pub end: usize,
    /// What could be at `start`: `digit`, `letter`, `whitespace`, `end`, or a string such as `.`. It is empty for a version, for a number
    /// that is too large, and where neither a range nor a tag goes on like this.
    pub expected: Vec<String>,
}

/// What a string was parsed as.
#[derive(Clone, Copy, PartialEq, Eq)]
enum Kind {
    Range(Grammar),
    Version,
}

/// What is wrong with a string. `Debug` shows the string too, with a mark at the place where it goes wrong.
///
/// ```
/// use deno_semver_proved::VersionReq;
///
/// let error = VersionReq::parse_from_npm(">=1.2<2").unwrap_err();
/// assert_eq!(format!("{error:?}"), "Invalid version requirement: Unexpected character.\n  >=1.2<2\n       ^");
/// ```
#[derive(Clone, PartialEq, Eq)]
pub struct ParseErrorFailureError {
    /// What is wrong, in one line.
    pub message: String,
    /// If a number of a version is missing, the whole string; if a path follows a package, the path; else none.
    pub code_snippet: Option<String>,
    // The string that was parsed; none where the place isn't known.
    parsed: Option<(Kind, String)>,
}

impl ParseErrorFailureError {
    pub(crate) fn new(message: &str, code_snippet: Option<String>) -> ParseErrorFailureError {
        ParseErrorFailureError { message: message.to_owned(), code_snippet, parsed: None }
    }

    pub(crate) fn of_range(message: String, grammar: Grammar, text: &str) -> ParseErrorFailureError {
        ParseErrorFailureError { message, code_snippet: None, parsed: Some((Kind::Range(grammar), text.to_owned())) }
    }

    pub(crate) fn of_version(message: String, text: &str) -> ParseErrorFailureError {
        let code_snippet = message.starts_with("Missing ").then(|| text.trim().to_owned());
        ParseErrorFailureError { message, code_snippet, parsed: Some((Kind::Version, text.to_owned())) }
    }

    /// Where the requirement or the version is invalid. Indexes count from its first byte, not from the package's name before it. In a
    /// requirement, the place is in the first invalid alternative. This call finds it, in some 50 µs for a short requirement.
    ///
    /// None if the place isn't known: for a path after a package, and for [`Version::from_parts`](crate::Version::from_parts).
    ///
    /// ```
    /// use deno_semver_proved::VersionReq;
    ///
    /// let text = "^1.2.3.4";
    /// let error = VersionReq::parse_from_npm(text).unwrap_err().source;
    /// let place = error.place().unwrap();
    /// assert_eq!((place.start, &text[place.start..place.end]), (6, ".4"));
    /// ```
    pub fn place(&self) -> Option<Place> {
        let (kind, text) = self.parsed.as_ref()?;
        let mut start = 0;
        match kind {
            Kind::Range(grammar) => json::first_error(|out, needed| semver_errors(*grammar as u32, text, out, needed)),
            Kind::Version => match semver_version_error(text, &mut start) {
                YES => Some(Place { start, end: text.len(), expected: Vec::new() }),
                code => failed(code),
            },
        }
    }

    // Of a long string only the part around the place is written, and a space for each control character, so that it takes a line.
    fn write_with_mark(&self, f: &mut fmt::Formatter<'_>) -> fmt::Result {
        const BEFORE: usize = 60;
        const LONGEST: usize = 100;
        let (Some(place), Some((_, text))) = (self.place(), &self.parsed) else {
            return write!(f, "{self}");
        };
        let column = text.char_indices().take_while(|(at, _)| *at < place.start).count();
        let skipped = column.saturating_sub(BEFORE);
        let visible = |c: char| if c.is_control() { ' ' } else { c };
        let shown: String = text.chars().skip(skipped).take(LONGEST).map(visible).collect();
        write!(f, "{}\n  {shown}\n  {:>2$}", self.message, "^", column - skipped + 1)
    }
}

errors! {
    ParseErrorFailureError: |it, f| match &it.code_snippet {
        Some(snippet) => write!(f, "{}\n  {snippet}\n  ~", it.message),
        None => f.write_str(&it.message),
    };
}
