//! The JSON of the types: a string for what has a canonical form, and an object for a requirement.

use crate::jsr::{JsrDepPackageReq, JsrPackageNvReference};
use crate::npm::NpmPackageNvReference;
use crate::package::{PackageNv, PackageReq};
use crate::{CowVec, RangeSetOrTag, StackString, Version, VersionReq};
use serde::de::Error;
use serde::{Deserialize, Deserializer, Serialize, Serializer};
use std::borrow::Cow;
use std::fmt;

// An error with its causes, on one line.
fn line(error: &dyn std::error::Error) -> String {
    let causes = std::iter::successors(error.source(), |error| (*error).source());
    causes.fold(error.to_string(), |line, cause| format!("{line}: {cause}")).replace('\n', " ")
}

macro_rules! as_text {
    ($($name:ty: $write:ident, $parse:expr;)*) => {$(
        impl Serialize for $name {
            fn serialize<S: Serializer>(&self, serializer: S) -> Result<S::Ok, S::Error> {
                serializer.serialize_str(&self.$write())
            }
        }

        impl<'de> Deserialize<'de> for $name {
            fn deserialize<D: Deserializer<'de>>(deserializer: D) -> Result<$name, D::Error> {
                let text = Cow::<'de, str>::deserialize(deserializer)?;
                $parse(&text).map_err(|error| D::Error::custom(line(&error)))
            }
        }
    )*};
}

as_text! {
    Version: to_string, Version::parse_standard;
    PackageNv: to_string, PackageNv::from_str;
    JsrPackageNvReference: to_string, JsrPackageNvReference::from_str;
    NpmPackageNvReference: to_string, NpmPackageNvReference::from_str;
    PackageReq: to_string_normalized, PackageReq::from_str_normalized;
    JsrDepPackageReq: to_string_normalized, JsrDepPackageReq::from_str_normalized;
    RangeSetOrTag: to_string, |text: &str| VersionReq::parse_from_normalized(text).map(|req| req.inner().clone());
    StackString: to_string, |text: &str| Ok::<_, fmt::Error>(StackString::from_str(text));
}

impl<T: Serialize> Serialize for CowVec<T> {
    fn serialize<S: Serializer>(&self, serializer: S) -> Result<S::Ok, S::Error> {
        self[..].serialize(serializer)
    }
}

impl<'de, T: Deserialize<'de>> Deserialize<'de> for CowVec<T> {
    fn deserialize<D: Deserializer<'de>>(deserializer: D) -> Result<CowVec<T>, D::Error> {
        Vec::deserialize(deserializer).map(CowVec::from)
    }
}

/// The members of a requirement.
#[derive(Serialize, Deserialize)]
struct Members {
    raw_text: StackString,
    inner: RangeSetOrTag,
}

impl Serialize for VersionReq {
    fn serialize<S: Serializer>(&self, serializer: S) -> Result<S::Ok, S::Error> {
        Members { raw_text: self.version_text().into(), inner: self.inner().clone() }.serialize(serializer)
    }
}

impl<'de> Deserialize<'de> for VersionReq {
    fn deserialize<D: Deserializer<'de>>(deserializer: D) -> Result<VersionReq, D::Error> {
        Members::deserialize(deserializer).map(|it| VersionReq::from_raw_text_and_inner(it.raw_text, it.inner))
    }
}
