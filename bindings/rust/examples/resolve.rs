//! Which version does each dependency get?

use deno_semver_proved::{Version, VersionReq};
use std::error::Error;

const ROUTER: [&str; 4] = ["2.0.4", "2.1.0", "2.3.1", "3.0.0"];
const LOG: [&str; 2] = ["1.2.0", "1.3.0-beta.2"];
const DEPENDENCIES: [(&str, &str, &[&str]); 4] =
    [("router", "^2.1", &ROUTER), ("log", "^1.2 || 2", &LOG), ("router", "<2.0.4", &ROUTER), ("router", "^2..1", &ROUTER)];

/// The highest of the versions that the range matches.
fn best(range: &str, versions: &[&str]) -> Result<Option<Version>, Box<dyn Error>> {
    let req = VersionReq::parse_from_npm(range)?;
    let versions: Vec<Version> = versions.iter().map(|text| Version::parse_standard(text)).collect::<Result<_, _>>()?;
    Ok(versions.into_iter().filter(|version| req.matches(version)).max())
}

/// The message of the error's source, which says what is wrong in the range; of the error itself if it has no source.
fn reason(error: &(dyn Error + 'static)) -> String {
    error.source().unwrap_or(error).to_string()
}

fn main() {
    for (package, range, versions) in DEPENDENCIES {
        let found = match best(range, versions) {
            Ok(Some(version)) => version.to_string(),
            Ok(None) => "no version matches".to_string(),
            Err(error) => reason(&*error),
        };
        println!("{package} {range}: {found}");
    }
}
