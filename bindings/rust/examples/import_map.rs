//! Prints each invalid specifier of an import map, and each pair of specifiers of one package whose requirements share no version.
//!
//! usage: import_map [deno.json]

use deno_semver_proved::jsr::JsrPackageReqReference;
use deno_semver_proved::lowest::{common_version, Lowest};
use deno_semver_proved::npm::NpmPackageReqReference;
use deno_semver_proved::package::{PackageReq, PackageReqReferenceParseError};
use deno_semver_proved::{Grammar, PreRelease};
use serde::Deserialize;
use std::collections::BTreeMap;
use std::error::Error;

const SAMPLE: &str = r#"{ "imports": {
    "@std/path": "jsr:@std/path@^1.0.8",
    "@std/path/posix": "jsr:@std/path@~0.225/posix",
    "bdd": "jsr:@std/testing/bdd@1",
    "chalk": "npm:chalk@5",
    "chalk/": "npm:/chalk@^5.3/",
    "left-pad": "npm:left-pad@>=1",
    "local": "./src/mod.ts"
} }"#;

#[derive(Deserialize)]
struct ImportMap {
    imports: BTreeMap<String, String>,
}

/// The package of a specifier; none if it is of another kind.
fn package(specifier: &str) -> Result<Option<PackageReq>, PackageReqReferenceParseError> {
    match JsrPackageReqReference::from_str(specifier) {
        Ok(reference) => return Ok(Some(reference.into_inner().req)),
        Err(PackageReqReferenceParseError::NotExpectedScheme(_)) => {}
        Err(error) => return Err(error),
    }
    match NpmPackageReqReference::from_str(specifier) {
        Ok(reference) => Ok(Some(reference.into_inner().req)),
        Err(PackageReqReferenceParseError::NotExpectedScheme(_)) => Ok(None),
        Err(error) => Err(error),
    }
}

/// Whether some version matches both requirements.
fn agree(one: &PackageReq, other: &PackageReq) -> bool {
    let ranges = [&one.version_req, &other.version_req];
    one.version_req.tag().is_some()
        || other.version_req.tag().is_some()
        || common_version(Grammar::Strict, ranges, PreRelease::Restricted).is_ok_and(|lowest| lowest != Lowest::Nothing)
}

fn main() -> Result<(), Box<dyn Error>> {
    let text = match std::env::args().nth(1) {
        Some(path) => std::fs::read_to_string(path)?,
        None => SAMPLE.to_string(),
    };
    let map: ImportMap = serde_json::from_str(&text)?;
    let mut packages: Vec<(&str, PackageReq)> = Vec::new();
    for (name, specifier) in &map.imports {
        match package(specifier) {
            Ok(Some(req)) => packages.push((name, req)),
            Ok(None) => println!("{name}: {specifier} isn't a package"),
            Err(error) => println!("{name}: {error}{}", error.source().map_or(String::new(), |cause| format!(": {cause}"))),
        }
    }
    for (at, (name, req)) in packages.iter().enumerate() {
        for (other_name, other) in packages[..at].iter().filter(|(_, other)| other.name == req.name && !agree(other, req)) {
            println!("{other_name} and {name}: no version matches both {other} and {req}");
        }
    }
    Ok(())
}
