//! Strings that need no memory of their own while they are short.

use crate::error::display;
use crate::raw::{Short, SHORT};
use std::borrow::{Borrow, Cow};
use std::cmp::Ordering;
use std::fmt;
use std::hash::{Hash, Hasher};
use std::ops::Deref;
use std::path::Path;
use std::sync::Arc;

#[derive(Clone, PartialEq, Eq)]
enum Text {
    Short(Short),
    Long(Arc<str>),
}

/// A string of 24 bytes that holds up to 22 bytes of UTF-8 in itself; copies of a longer one share their bytes.
#[derive(Clone, PartialEq, Eq)]
pub struct StackString(Text);

/// The other name that the crate `deno_semver` has for such a string.
pub type SmallStackString = StackString;

impl StackString {
    /// An empty string. The capacity isn't used.
    pub fn with_capacity(_size: usize) -> StackString {
        StackString::default()
    }

    /// Makes a `StackString` of a `'static` string.
    pub fn from_static(text: &'static str) -> StackString {
        StackString::from_str(text)
    }

    /// Makes a `StackString` of a string.
    #[allow(clippy::should_implement_trait)]
    #[inline]
    pub fn from_str(text: &str) -> StackString {
        StackString(if text.len() <= SHORT { Text::Short(Short::concat(&[text])) } else { Text::Long(text.into()) })
    }

    #[inline]
    pub(crate) fn concat(parts: &[&str]) -> StackString {
        let is_short = parts.iter().map(|part| part.len()).sum::<usize>() <= SHORT;
        StackString(if is_short { Text::Short(Short::concat(parts)) } else { Text::Long(parts.concat().into()) })
    }

    /// Makes a `StackString` of an owned string.
    pub fn from_string(text: String) -> StackString {
        StackString::from_str(&text)
    }

    /// Makes a `StackString` of a string that is owned or borrowed.
    pub fn from_cow(text: Cow<'_, str>) -> StackString {
        StackString::from_str(&text)
    }

    /// The string as a `&str`.
    #[inline]
    pub fn as_str(&self) -> &str {
        match &self.0 {
            Text::Short(text) => text.as_str(),
            Text::Long(text) => text,
        }
    }

    /// Appends a character.
    pub fn push(&mut self, c: char) {
        self.push_str(c.encode_utf8(&mut [0; 4]));
    }

    /// Appends a string.
    pub fn push_str(&mut self, text: &str) {
        *self = StackString::concat(&[self.as_str(), text]);
    }

    /// The string, with each occurrence of `from` replaced by `to`.
    pub fn replace(&self, from: &str, to: &str) -> StackString {
        StackString::from_string(self.as_str().replace(from, to))
    }

    /// The string as a `String`.
    pub fn into_string(self) -> String {
        self.as_str().to_owned()
    }
}

impl Default for StackString {
    fn default() -> StackString {
        StackString(Text::Short(Short::EMPTY))
    }
}

impl Deref for StackString {
    type Target = str;

    #[inline]
    fn deref(&self) -> &str {
        self.as_str()
    }
}

impl Borrow<str> for StackString {
    fn borrow(&self) -> &str {
        self
    }
}

impl AsRef<Path> for StackString {
    fn as_ref(&self) -> &Path {
        Path::new(self.as_str())
    }
}

impl From<&str> for StackString {
    fn from(text: &str) -> StackString {
        StackString::from_str(text)
    }
}

display! {
    StackString: |it, f| it.as_str().fmt(f);
}

impl fmt::Debug for StackString {
    fn fmt(&self, f: &mut fmt::Formatter<'_>) -> fmt::Result {
        fmt::Debug::fmt(self.as_str(), f)
    }
}

impl PartialOrd for StackString {
    fn partial_cmp(&self, other: &StackString) -> Option<Ordering> {
        Some(self.cmp(other))
    }
}

impl Ord for StackString {
    fn cmp(&self, other: &StackString) -> Ordering {
        self.as_str().cmp(other.as_str())
    }
}

// As that of `str`, so that a map of these strings can be asked by a `&str`.
impl Hash for StackString {
    fn hash<H: Hasher>(&self, state: &mut H) {
        self.as_str().hash(state);
    }
}

macro_rules! equals {
    ($($other:ty),*) => {$(
        impl PartialEq<$other> for StackString {
            fn eq(&self, other: &$other) -> bool {
                self.as_str() == &other[..]
            }
        }

        impl PartialEq<StackString> for $other {
            fn eq(&self, other: &StackString) -> bool {
                &self[..] == other.as_str()
            }
        }
    )*};
}

equals!(str, &str, String, &String);

impl PartialEq<&StackString> for String {
    fn eq(&self, other: &&StackString) -> bool {
        self == other.as_str()
    }
}
