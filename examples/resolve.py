"""Which version does each dependency get? Run it where the wheel is installed."""

import deno_semver as semver

VERSIONS = {
    "router": ["2.0.4", "2.1.0", "2.3.1", "3.0.0"],
    "log": ["1.2.0", "1.3.0-beta.2"],
}
DEPENDENCIES = [("router", "^2.1"), ("log", "^1.2 || 2"), ("router", "<2.0.4"), ("router", "^2..1")]

for package, range in DEPENDENCIES:
    try:
        found = semver.best(range, VERSIONS[package]) or "no version matches"
    except semver.InvalidRange as error:
        found = error.message
    print(f"{package} {range}: {found}")
