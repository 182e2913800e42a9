//! The JSON of the types, with the feature `serde`.
#![cfg(feature = "serde")]

use deno_semver_proved::jsr::{JsrDepPackageReq, JsrPackageNvReference};
use deno_semver_proved::npm::NpmPackageNvReference;
use deno_semver_proved::package::{PackageNv, PackageReq};
use deno_semver_proved::{RangeBound, RangeSetOrTag, StackString, Version, VersionRange, VersionRangeSet, VersionReq};
use serde::de::DeserializeOwned;
use serde::Serialize;
use serde_json::{from_str, to_string};

/// The JSON of a value read from JSON.
fn again<T: Serialize + DeserializeOwned>(json: &str) -> String {
    to_string(&from_str::<T>(json).unwrap()).unwrap()
}

#[test]
fn texts() {
    assert_eq!(again::<Version>(r#""= v1.2.3-a+b""#), r#""1.2.3-a+b""#);
    assert_eq!(again::<PackageNv>(r#""@a/b@v1.2.3""#), r#""@a/b@1.2.3""#);
    assert_eq!(again::<JsrPackageNvReference>(r#""jsr:/a@1.2.3/b""#), r#""jsr:a@1.2.3/b""#);
    assert_eq!(again::<NpmPackageNvReference>(r#""npm:a@1.2.3""#), r#""npm:a@1.2.3""#);
    assert_eq!(again::<PackageReq>(r#""a@>=1.0.0 <2.0.0""#), r#""a@1""#);
    assert_eq!(again::<JsrDepPackageReq>(r#""npm:a""#), r#""npm:a@*""#);
    assert_eq!(again::<RangeSetOrTag>(r#""1.0.0 || ^2""#), r#""1.0.0 || 2""#);
    assert_eq!(again::<StackString>(r#""\u00e9\n""#), r#""é\n""#);
}

#[test]
fn objects() {
    let req = r#"{"raw_text":"any text","inner":"^1.2.0 || 3"}"#;
    assert_eq!(again::<VersionReq>(req), req);
    let loose: VersionReq = from_str(&to_string(&VersionReq::parse_from_npm("1.x").unwrap()).unwrap()).unwrap();
    assert_eq!((loose.version_text(), loose.to_string_normalized().as_str()), ("1.x", "1"));
    let range = r#"{"start":{"Version":{"kind":"Inclusive","version":"1.2.3"}},"end":"Unbounded"}"#;
    assert_eq!(again::<VersionRange>(range), range);
    assert_eq!(again::<VersionRangeSet>(&format!("[{range}]")), format!("[{range}]"));
}

#[test]
fn errors() {
    let error = from_str::<PackageReq>(r#""a@!""#).unwrap_err().to_string();
    assert!(error.starts_with("Invalid package requirement 'a@!': Invalid normalized version requirement: Unexpected character."));
    assert!(from_str::<VersionReq>(r#"{"raw_text":"1"}"#).is_err());
    let twice = r#"{"start":"Unbounded","start":"Unbounded","end":"Unbounded"}"#;
    assert!(from_str::<VersionRange>(twice).unwrap_err().to_string().starts_with("duplicate field `start`"));
    let two_keys = r#"{"Version":{"kind":"Inclusive","version":"1.2.3"},"other":1}"#;
    assert!(from_str::<RangeBound>(two_keys).is_err());
}
