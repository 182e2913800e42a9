//! The only module with `unsafe`: a call of the library, a handle that threads share, and the bytes of a short string.

use crate::calls::{failed, with_text, YES};
use crate::externs::{semver_list_free, semver_req_free, semver_scans_free, semver_version_free};
use crate::string::StackString;
use std::ffi::c_void;
use std::mem::ManuallyDrop;
use std::ptr;

/// Declares calls of the library, and makes each a safe function. It passes a slice or a `str` as a pointer and a length.
macro_rules! calls {
    ($(fn $name:ident($($parameters:tt)*) $(-> $result:ty)?;)*) => {
        $(calls!(@ $name [$($result)?] [] [] [] $($parameters)*,);)*
    };
    (@ $name:ident $result:tt [$($taken:tt)*] [$($foreign:tt)*] [$($passed:tt)*] $it:ident: &str, $($rest:tt)*) => {
        calls!(@ $name $result [$($taken)* $it: &str,] [$($foreign)* _: *const u8, _: usize,]
            [$($passed)* $it.as_ptr(), $it.len(),] $($rest)*);
    };
    (@ $name:ident $result:tt [$($taken:tt)*] [$($foreign:tt)*] [$($passed:tt)*] $it:ident: &mut [$of:ty], $($rest:tt)*) => {
        calls!(@ $name $result [$($taken)* $it: &mut [$of],] [$($foreign)* _: *mut $of, _: usize,]
            [$($passed)* $it.as_mut_ptr(), $it.len(),] $($rest)*);
    };
    (@ $name:ident $result:tt [$($taken:tt)*] [$($foreign:tt)*] [$($passed:tt)*] $it:ident: $of:ty, $($rest:tt)*) => {
        calls!(@ $name $result [$($taken)* $it: $of,] [$($foreign)* _: $of,] [$($passed)* $it,] $($rest)*);
    };
    (@ $name:ident [$($result:ty)?] [$($taken:tt)*] [$($foreign:tt)*] [$($passed:tt)*]) => {
        #[inline]
        pub(crate) fn $name($($taken)*) $(-> $result)? {
            extern "C" {
                fn $name($($foreign)*) $(-> $result)?;
            }
            // SAFETY: the parameters are those of the export. Each pointer is that of a reference that is borrowed for the call, so it
            // isn't null, its memory is as long as it says, and what the call may write has no other name. No call keeps a pointer.
            unsafe { $name($($passed)*) }
        }
    };
}

pub(crate) use calls;

/// Defines a handle, which has a value from when it is read until it is dropped.
macro_rules! handle {
    ($(#[$doc:meta])* $name:ident, $free:ident) => {
        $(#[$doc])*
        #[repr(C)]
        pub(crate) struct $name {
            at: *mut c_void,
        }

        // SAFETY: the value is plain memory of `malloc`, which any thread may free.
        unsafe impl Send for $name {}

        // SAFETY: `&self` is a `const` handle, and a call with one writes nothing to the handle or its value, as bindings/c/threads.c
        // tests. Calls that read into a handle or free it take `&mut`.
        unsafe impl Sync for $name {}

        impl $name {
            /// The handle that a call reads into, which is never empty, and the text that the call writes. The call is repeated if the text
            /// is long.
            pub(crate) fn read(mut call: impl FnMut(&mut $name, &mut [u8], &mut usize) -> i32) -> ($name, StackString) {
                let mut handle = $name { at: ptr::null_mut() };
                let read = |code, text: &str| if code == YES { text.into() } else { failed(code) };
                let text = with_text(|out, needed| call(&mut handle, out, needed), read);
                assert!(!handle.at.is_null(), "the call read a value");
                (handle, text)
            }
        }

        impl Drop for $name {
            fn drop(&mut self) {
                $free(self);
            }
        }
    };
}

handle!(
    /// A parsed range or tag.
    Requirement,
    semver_req_free
);
handle!(
    /// A parsed version.
    VersionHandle,
    semver_version_free
);
handle!(
    /// Parsed versions, one per line.
    Versions,
    semver_list_free
);

handle!(
    /// What a range matches.
    Scans,
    semver_scans_free
);

impl Requirement {
    /// A copy of the handle, which doesn't free the value. It may be asked as long as this one is kept.
    #[inline]
    pub(crate) fn copy(&self) -> ManuallyDrop<Requirement> {
        ManuallyDrop::new(Requirement { at: self.at })
    }
}

/// How many bytes a short string has at most.
pub(crate) const SHORT: usize = 22;

/// A string of up to 22 bytes: the first `len` are UTF-8, and the others are 0. With `len` first, it is copied faster.
#[derive(Clone, Copy, PartialEq, Eq)]
#[repr(C)]
pub(crate) struct Short {
    len: u8,
    bytes: [u8; SHORT],
}

impl Short {
    pub(crate) const EMPTY: Short = Short { len: 0, bytes: [0; SHORT] };

    /// The string of these parts, which panics if it would be too long.
    #[inline]
    pub(crate) fn concat(parts: &[&str]) -> Short {
        let (mut bytes, mut end) = ([0; SHORT], 0);
        for part in parts {
            bytes[end..end + part.len()].copy_from_slice(part.as_bytes());
            end += part.len();
        }
        Short { len: end as u8, bytes }
    }

    #[inline]
    pub(crate) fn as_str(&self) -> &str {
        // SAFETY: the bytes were copied from texts of this length, which are UTF-8, and nothing changes them.
        unsafe { std::str::from_utf8_unchecked(&self.bytes[..usize::from(self.len)]) }
    }
}

#[cfg(test)]
mod tests {
    use super::{Requirement, YES};

    #[test]
    #[should_panic(expected = "the call read a value")]
    fn no_handle_is_empty() {
        Requirement::read(|_, _, _| YES);
    }
}
