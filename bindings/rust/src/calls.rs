//! What the C calls have in common: codes, texts and error messages.

use crate::externs::semver_is_tag;
use crate::own;
use std::alloc::{handle_alloc_error, Layout};
use std::cmp::Ordering;
use std::fmt::{Display, Write};

pub(crate) const NO: i32 = 0;
pub(crate) const YES: i32 = 1;
pub(crate) const TAG: i32 = -1;
pub(crate) const INVALID_RANGE: i32 = -2;
pub(crate) const INVALID_VERSION: i32 = -3;
const NO_MEMORY: i32 = -6;
pub(crate) const NO_INCREMENT: i32 = -8;

/// A grammar of ranges.
#[derive(Clone, Copy, Debug, PartialEq, Eq)]
#[repr(u32)]
pub enum Grammar {
    /// npm's ranges.
    Npm = 0,
    /// Comparators separated by whitespace, alternatives by `||`.
    Normalized = 1,
    /// The grammar of package specifiers: `~`, `^` or nothing before one partial version.
    Strict = 2,
}

/// Whether pre-releases match by npm's rule, or wherever they lie between the bounds.
#[derive(Clone, Copy, Debug, PartialEq, Eq)]
#[repr(u32)]
pub enum PreRelease {
    /// npm's rule: a pre-release matches only if a bound is a pre-release of the same three numbers.
    Restricted = 0,
    /// Every pre-release between the bounds matches.
    Admitted = 1,
}

// Text is UTF-8, every `Grammar` exists and every handle has a value of its kind, so no other code is possible.
#[cold]
pub(crate) fn failed(code: i32) -> ! {
    match code {
        NO_MEMORY => handle_alloc_error(Layout::new::<usize>()),
        _ => unreachable!("code {code}"),
    }
}

/// What `take` makes of the code and the text of a call that writes a text. The call is repeated if the text is long.
pub(crate) fn with_text<T>(mut call: impl FnMut(&mut [u8], &mut usize) -> i32, take: impl FnOnce(i32, &str) -> T) -> T {
    let (mut near, mut far, mut needed) = ([0; 128], Vec::new(), 0);
    let mut code = call(&mut near, &mut needed);
    let mut out = &near[..];
    if needed > near.len() {
        far.resize(needed, 0);
        code = call(&mut far, &mut needed);
        out = &far;
    }
    if code == NO_MEMORY {
        failed(code);
    }
    take(code, std::str::from_utf8(&out[..needed]).expect("the library's texts are UTF-8"))
}

/// The code and the text of such a call.
pub(crate) fn code_and_text(call: impl FnMut(&mut [u8], &mut usize) -> i32) -> (i32, String) {
    with_text(call, |code, text| (code, text.to_owned()))
}

/// The text of a call that writes one or an error message.
pub(crate) fn text_or_message(call: impl FnMut(&mut [u8], &mut usize) -> i32) -> Result<String, String> {
    match code_and_text(call) {
        (YES, text) => Ok(text),
        (INVALID_RANGE | INVALID_VERSION, message) => Err(message),
        (code, _) => failed(code),
    }
}

/// Whether a range is a tag, or the error message.
#[inline]
pub(crate) fn is_tag(grammar: Grammar, text: &str) -> Result<bool, String> {
    if own::is_plain_range(text) {
        return Ok(false);
    }
    match semver_is_tag(grammar as u32, text, &mut [], &mut 0) {
        INVALID_RANGE => Err(message(grammar, text)),
        code => Ok(answer(code) == Some(true)),
    }
}

/// The error message of a range.
#[cold]
pub(crate) fn message(grammar: Grammar, text: &str) -> String {
    code_and_text(|out, needed| semver_is_tag(grammar as u32, text, out, needed)).1
}

/// The answer of a call that answers yes or no. None if a range is a tag.
#[inline]
pub(crate) fn answer(code: i32) -> Option<bool> {
    match code {
        NO | YES => Some(code == YES),
        TAG => None,
        _ => failed(code),
    }
}

/// The answer of a call that compares.
#[inline]
pub(crate) fn ordering(code: i32) -> Ordering {
    match code {
        0 => Ordering::Less,
        1 => Ordering::Equal,
        2 => Ordering::Greater,
        _ => failed(code),
    }
}

/// Strings as lines, and how many there are. A line break within one is whitespace, as a space is.
pub(crate) fn lines(strings: impl IntoIterator<Item = impl Display>) -> (String, usize) {
    let (mut joined, mut count) = (String::new(), 0);
    for string in strings {
        let start = joined.len();
        let _ = write!(joined, "{string}"); // to a String, which doesn't fail
        if joined[start..].contains(['\n', '\r']) {
            let line = joined[start..].replace(['\n', '\r'], " ");
            joined.replace_range(start.., &line);
        }
        joined.push('\n');
        count += 1;
    }
    (joined, count)
}
