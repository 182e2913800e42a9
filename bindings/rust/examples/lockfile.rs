//! Checks a lockfile, and reports each requirement whose version doesn't match it or isn't among the packages.
//!
//! usage: lockfile [deno.lock]

use deno_semver_proved::jsr::JsrDepPackageReq;
use deno_semver_proved::package::{PackageKind, PackageNv};
use deno_semver_proved::Version;
use serde::Deserialize;
use std::collections::{BTreeMap, HashMap};
use std::error::Error;

const SAMPLE: &str = r#"{
  "version": "5",
  "specifiers": {
    "jsr:@std/path@1": "1.0.8",
    "jsr:@std/fs@^1.0.5": "1.1.0",
    "npm:chalk@5": "4.1.2",
    "npm:left-pad@latest": "1.3.0"
  },
  "jsr": { "@std/path@1.0.8": {} },
  "npm": { "chalk@4.1.2": {}, "left-pad@1.3.0": {} }
}"#;

/// The requirements of a lockfile, and the versions that it gives them. Other entries are ignored.
#[derive(Deserialize)]
struct Lockfile {
    specifiers: BTreeMap<String, Version>,
    #[serde(default)]
    jsr: HashMap<String, serde_json::Value>,
    #[serde(default)]
    npm: HashMap<String, serde_json::Value>,
}

impl Lockfile {
    /// What is wrong with an entry, if something is.
    fn check(&self, specifier: &str, version: &Version) -> Result<(), String> {
        let dependency = JsrDepPackageReq::from_str_normalized(specifier).map_err(|error| with_causes(&error))?;
        let req = &dependency.req;
        if req.version_req.tag().is_none() && !req.version_req.matches(version) {
            return Err(format!("{version} doesn't match {}", req.version_req));
        }
        let packages = match dependency.kind {
            PackageKind::Jsr => &self.jsr,
            PackageKind::Npm => &self.npm,
        };
        let nv = PackageNv { name: req.name.clone(), version: version.clone() };
        packages.get(&nv.to_string()).map(|_| ()).ok_or_else(|| format!("there is no package {nv}"))
    }
}

fn with_causes(error: &dyn Error) -> String {
    std::iter::successors(Some(error), |error| (*error).source()).map(ToString::to_string).collect::<Vec<_>>().join(": ")
}

fn main() -> Result<(), Box<dyn Error>> {
    let text = match std::env::args().nth(1) {
        Some(path) => std::fs::read_to_string(path)?,
        None => SAMPLE.to_string(),
    };
    let lockfile: Lockfile = serde_json::from_str(&text)?;
    for (specifier, version) in &lockfile.specifiers {
        match lockfile.check(specifier, version) {
            Ok(()) => println!("{specifier}: {version}"),
            Err(problem) => println!("{specifier}: {problem}"),
        }
    }
    Ok(())
}
