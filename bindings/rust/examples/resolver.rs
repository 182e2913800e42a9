//! A small resolver: it picks the highest version that each requirement matches, and the dependencies of what it picks.
//!
//! usage: resolver [PACKAGE@RANGE ..]

use deno_semver_proved::package::{PackageNv, PackageReq};
use deno_semver_proved::Version;
use std::collections::BTreeMap;
use std::error::Error;

/// What a registry has: a package with a version, and its dependencies.
const REGISTRY: &[(&str, &[&str])] = &[
    ("app@1.0.0", &["router@^2.1", "@scope/log@1"]),
    ("app@1.1.0-rc.1", &["router@^3"]),
    ("router@2.0.4", &[]),
    ("router@2.1.0", &["path@~1.0.2"]),
    ("router@2.3.1", &["path@~1.0.2", "@scope/log@^1.2"]),
    ("router@3.0.0", &["path@1"]),
    ("path@1.0.2", &[]),
    ("path@1.0.9", &[]),
    ("path@1.1.0", &[]),
    ("@scope/log@1.2.0", &[]),
    ("@scope/log@1.3.0-beta.2", &[]),
];

#[derive(Default)]
struct Registry {
    versions: BTreeMap<String, BTreeMap<Version, Vec<PackageReq>>>,
}

impl Registry {
    fn parse(packages: &[(&str, &[&str])]) -> Result<Registry, Box<dyn Error>> {
        let mut registry = Registry::default();
        for (package, dependencies) in packages {
            let nv = PackageNv::from_str(package)?;
            let dependencies = dependencies.iter().map(|text| PackageReq::from_str(text)).collect::<Result<_, _>>()?;
            registry.versions.entry(nv.name.to_string()).or_default().insert(nv.version, dependencies);
        }
        Ok(registry)
    }

    /// The highest version that the requirement matches, and its dependencies.
    fn pick(&self, req: &PackageReq) -> Option<(PackageNv, &[PackageReq])> {
        let mut versions = self.versions.get(req.name.as_str())?.iter().rev();
        let (version, dependencies) = match req.version_req.tag() {
            Some("latest") => versions.find(|(version, _)| version.pre.is_empty())?,
            Some(_) => return None,
            None => versions.find(|(version, _)| req.version_req.matches(version))?,
        };
        Some((PackageNv { name: req.name.clone(), version: version.clone() }, dependencies))
    }

    /// What each requirement is resolved to, in the order of requirements.
    fn resolve(&self, roots: Vec<PackageReq>) -> Result<BTreeMap<PackageReq, PackageNv>, String> {
        let (mut resolved, mut waiting) = (BTreeMap::new(), roots);
        while let Some(req) = waiting.pop() {
            if resolved.contains_key(&req) {
                continue;
            }
            let (nv, dependencies) = self.pick(&req).ok_or_else(|| format!("no version matches {req}"))?;
            waiting.extend_from_slice(dependencies);
            resolved.insert(req, nv);
        }
        Ok(resolved)
    }
}

fn main() -> Result<(), Box<dyn Error>> {
    let mut roots: Vec<String> = std::env::args().skip(1).collect();
    if roots.is_empty() {
        roots.push("app@latest".to_string());
    }
    let roots = roots.iter().map(|text| PackageReq::from_str(text)).collect::<Result<_, _>>()?;
    for (req, nv) in Registry::parse(REGISTRY)?.resolve(roots)? {
        println!("{req} -> {nv}");
    }
    Ok(())
}
