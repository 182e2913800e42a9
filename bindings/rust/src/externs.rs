//! The C calls as safe functions. Made by bindings/declarations.py from the exports of crates/semver_c/src/lib.rt.

use crate::raw::{calls, Requirement, Scans, VersionHandle, Versions};

calls! {
    fn semver_above(grammar: u32, range: &str, version: &str, pre_releases: u32, out: &mut [u8], needed: &mut usize) -> i32;
    fn semver_below(grammar: u32, range: &str, version: &str, pre_releases: u32, out: &mut [u8], needed: &mut usize) -> i32;
    fn semver_increment(release_type: u32, version: &str, identifiers: &str, base: u32, out: &mut [u8], needed: &mut usize) -> i32;
    fn semver_coerce(first_or_last: u32, text: &str, pre_releases: u32, out: &mut [u8], needed: &mut usize) -> i32;
    fn semver_difference(one: &str, other: &str, place: &mut usize) -> i32;
    fn semver_within(grammar: u32, one: &str, other: &str, pre_releases: u32, out: &mut [u8], needed: &mut usize, place: &mut usize) -> i32;
    fn semver_equivalent(grammar: u32, one: &str, other: &str, pre_releases: u32, place: &mut usize) -> i32;
    fn semver_common_all(grammar: u32, ranges: &str, pre_releases: u32, out: &mut [u8], needed: &mut usize, place: &mut usize) -> i32;
    fn semver_min_version(grammar: u32, range: &str, pre_releases: u32, out: &mut [u8], needed: &mut usize) -> i32;
    fn semver_normal(grammar: u32, range: &str, out: &mut [u8], needed: &mut usize) -> i32;
    fn semver_is_tag(grammar: u32, range: &str, out: &mut [u8], needed: &mut usize) -> i32;
    fn semver_version(version: &str, out: &mut [u8], needed: &mut usize) -> i32;
    fn semver_key(version: &str, out: &mut [u8], needed: &mut usize) -> i32;
    fn semver_may_be_tag(text: &str) -> i32;
    fn semver_filter(grammar: u32, range: &str, versions: &str, pre_releases: u32, answers: &mut [i8], needed: &mut usize) -> i32;
    fn semver_best(grammar: u32, range: &str, versions: &str, pre_releases: u32, place: &mut usize) -> i32;
    fn semver_lowest(grammar: u32, range: &str, versions: &str, pre_releases: u32, place: &mut usize) -> i32;
    fn semver_simplify(grammar: u32, range: &str, versions: &str, pre_releases: u32, out: &mut [u8], needed: &mut usize, place: &mut usize) -> i32;
    fn semver_sort(versions: &str, places: &mut [usize], needed: &mut usize, place: &mut usize) -> i32;
    fn semver_package(grammar: u32, text: &str, out: &mut [u8], needed: &mut usize) -> i32;
    fn semver_reference(text: &str, out: &mut [u8], needed: &mut usize) -> i32;
    fn semver_package_errors(grammar: u32, text: &str, out: &mut [u8], needed: &mut usize) -> i32;
    fn semver_reference_errors(text: &str, out: &mut [u8], needed: &mut usize) -> i32;
    fn semver_version_numbers(version: &str, numbers: &mut [u64], needed: &mut usize) -> i32;
    fn semver_ranges(grammar: u32, range: &str, out: &mut [u8], needed: &mut usize) -> i32;
    fn semver_explain(grammar: u32, range: &str, pre_releases: u32, out: &mut [u8], needed: &mut usize) -> i32;
    fn semver_errors(grammar: u32, range: &str, out: &mut [u8], needed: &mut usize) -> i32;
    fn semver_version_error(version: &str, place: &mut usize) -> i32;
    fn semver_name_with_version(text: &str, out: &mut [u8], needed: &mut usize) -> i32;
    fn semver_version_reference(text: &str, out: &mut [u8], needed: &mut usize) -> i32;
    fn semver_dependency(grammar: u32, text: &str, out: &mut [u8], needed: &mut usize) -> i32;
    fn semver_req_read(grammar: u32, text: &str, handle: &mut Requirement, out: &mut [u8], needed: &mut usize) -> i32;
    fn semver_version_read(text: &str, handle: &mut VersionHandle, out: &mut [u8], needed: &mut usize) -> i32;
    fn semver_req_free(handle: &mut Requirement);
    fn semver_version_free(handle: &mut VersionHandle);
    fn semver_req_fits(handle: &Requirement, version: &str, pre_releases: u32) -> i32;
    fn semver_req_matches(range: &Requirement, version: &VersionHandle, pre_releases: u32) -> i32;
    fn semver_req_matches_release(handle: &Requirement, major: u64, minor: u64, patch: u64) -> i32;
    fn semver_req_intersects(one: &Requirement, other: &Requirement) -> i32;
    fn semver_version_compare(one: &VersionHandle, other: &VersionHandle) -> i32;
    fn semver_version_key(handle: &VersionHandle, out: &mut [u8], needed: &mut usize) -> i32;
    fn semver_version_order(one: &VersionHandle, other: &VersionHandle) -> i32;
    fn semver_req_equal(one: &Requirement, other: &Requirement) -> i32;
    fn semver_req_order(one: &Requirement, other: &Requirement) -> i32;
    fn semver_list_read(versions: &str, handle: &mut Versions, lines: &mut usize) -> i32;
    fn semver_list_free(handle: &mut Versions);
    fn semver_list_filter(list: &Versions, range: &Requirement, pre_releases: u32, answers: &mut [i8], needed: &mut usize) -> i32;
    fn semver_list_best(list: &Versions, range: &Requirement, pre_releases: u32, place: &mut usize) -> i32;
    fn semver_list_lowest(list: &Versions, range: &Requirement, pre_releases: u32, place: &mut usize) -> i32;
    fn semver_list_sort(list: &Versions, places: &mut [usize], needed: &mut usize) -> i32;
    fn semver_scans_read(range: &Requirement, pre_releases: u32, handle: &mut Scans, count: &mut usize) -> i32;
    fn semver_scans_free(handle: &mut Scans);
    fn semver_scan(handle: &Scans, index: usize, low: &mut [u8], low_needed: &mut usize, high: &mut [u8], high_needed: &mut usize) -> i32;
}
