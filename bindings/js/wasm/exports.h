/* Made by bindings/declarations.py from the exports of crates/semver_c/src/lib.rt. */

EXPORT(int32_t, fits)(uint32_t grammar, uint32_t range_len, uint32_t version_len, uint32_t pre_releases) {
    WRITES(semver_fits(grammar, TEXT(0, range_len), TEXT(range_len, version_len), pre_releases, OUT, &needed));
}

EXPORT(int32_t, above)(uint32_t grammar, uint32_t range_len, uint32_t version_len, uint32_t pre_releases) {
    WRITES(semver_above(grammar, TEXT(0, range_len), TEXT(range_len, version_len), pre_releases, OUT, &needed));
}

EXPORT(int32_t, below)(uint32_t grammar, uint32_t range_len, uint32_t version_len, uint32_t pre_releases) {
    WRITES(semver_below(grammar, TEXT(0, range_len), TEXT(range_len, version_len), pre_releases, OUT, &needed));
}

EXPORT(int32_t, increment)(uint32_t release_type, uint32_t version_len, uint32_t identifiers_len, uint32_t base) {
    WRITES(semver_increment(release_type, TEXT(0, version_len), TEXT(version_len, identifiers_len), base, OUT, &needed));
}

EXPORT(int32_t, coerce)(uint32_t first_or_last, uint32_t text_len, uint32_t pre_releases) {
    WRITES(semver_coerce(first_or_last, TEXT(0, text_len), pre_releases, OUT, &needed));
}

EXPORT(int32_t, difference)(uint32_t one_len, uint32_t other_len) {
    return semver_difference(TEXT(0, one_len), TEXT(one_len, other_len), &place);
}

EXPORT(int32_t, compare)(uint32_t one_len, uint32_t other_len) {
    return semver_compare(TEXT(0, one_len), TEXT(one_len, other_len), &place);
}

EXPORT(int32_t, intersects)(uint32_t grammar, uint32_t one_len, uint32_t other_len) {
    return semver_intersects(grammar, TEXT(0, one_len), TEXT(one_len, other_len), &place);
}

EXPORT(int32_t, within)(uint32_t grammar, uint32_t one_len, uint32_t other_len, uint32_t pre_releases) {
    WRITES(semver_within(grammar, TEXT(0, one_len), TEXT(one_len, other_len), pre_releases, OUT, &needed, &place));
}

EXPORT(int32_t, equivalent)(uint32_t grammar, uint32_t one_len, uint32_t other_len, uint32_t pre_releases) {
    return semver_equivalent(grammar, TEXT(0, one_len), TEXT(one_len, other_len), pre_releases, &place);
}

EXPORT(int32_t, common)(uint32_t grammar, uint32_t one_len, uint32_t other_len, uint32_t pre_releases) {
    WRITES(semver_common(grammar, TEXT(0, one_len), TEXT(one_len, other_len), pre_releases, OUT, &needed, &place));
}

EXPORT(int32_t, common_all)(uint32_t grammar, uint32_t ranges_len, uint32_t pre_releases) {
    WRITES(semver_common_all(grammar, TEXT(0, ranges_len), pre_releases, OUT, &needed, &place));
}

EXPORT(int32_t, min_version)(uint32_t grammar, uint32_t range_len, uint32_t pre_releases) {
    WRITES(semver_min_version(grammar, TEXT(0, range_len), pre_releases, OUT, &needed));
}

EXPORT(int32_t, normal)(uint32_t grammar, uint32_t range_len) {
    WRITES(semver_normal(grammar, TEXT(0, range_len), OUT, &needed));
}

EXPORT(int32_t, version)(uint32_t version_len) {
    WRITES(semver_version(TEXT(0, version_len), OUT, &needed));
}

EXPORT(int32_t, key)(uint32_t version_len) {
    WRITES(semver_key(TEXT(0, version_len), OUT, &needed));
}

EXPORT(int32_t, may_be_tag)(uint32_t text_len) {
    return semver_may_be_tag(TEXT(0, text_len));
}

EXPORT(int32_t, filter)(uint32_t grammar, uint32_t range_len, uint32_t versions_len, uint32_t pre_releases) {
    WRITES(semver_filter(grammar, TEXT(0, range_len), TEXT(range_len, versions_len), pre_releases, ANSWERS, &needed));
}

EXPORT(int32_t, best)(uint32_t grammar, uint32_t range_len, uint32_t versions_len, uint32_t pre_releases) {
    return semver_best(grammar, TEXT(0, range_len), TEXT(range_len, versions_len), pre_releases, &place);
}

EXPORT(int32_t, lowest)(uint32_t grammar, uint32_t range_len, uint32_t versions_len, uint32_t pre_releases) {
    return semver_lowest(grammar, TEXT(0, range_len), TEXT(range_len, versions_len), pre_releases, &place);
}

EXPORT(int32_t, simplify)(uint32_t grammar, uint32_t range_len, uint32_t versions_len, uint32_t pre_releases) {
    WRITES(semver_simplify(grammar, TEXT(0, range_len), TEXT(range_len, versions_len), pre_releases, OUT, &needed, &place));
}

EXPORT(int32_t, package)(uint32_t grammar, uint32_t text_len) {
    WRITES(semver_package(grammar, TEXT(0, text_len), OUT, &needed));
}

EXPORT(int32_t, reference)(uint32_t text_len) {
    WRITES(semver_reference(TEXT(0, text_len), OUT, &needed));
}

EXPORT(int32_t, package_errors)(uint32_t grammar, uint32_t text_len) {
    WRITES(semver_package_errors(grammar, TEXT(0, text_len), OUT, &needed));
}

EXPORT(int32_t, reference_errors)(uint32_t text_len) {
    WRITES(semver_reference_errors(TEXT(0, text_len), OUT, &needed));
}

EXPORT(int32_t, version_parts)(uint32_t version_len) {
    WRITES(semver_version_parts(TEXT(0, version_len), OUT, &needed));
}

EXPORT(int32_t, explain)(uint32_t grammar, uint32_t range_len, uint32_t pre_releases) {
    WRITES(semver_explain(grammar, TEXT(0, range_len), pre_releases, OUT, &needed));
}

EXPORT(int32_t, errors)(uint32_t grammar, uint32_t range_len) {
    WRITES(semver_errors(grammar, TEXT(0, range_len), OUT, &needed));
}

EXPORT(int32_t, version_error)(uint32_t version_len) {
    return semver_version_error(TEXT(0, version_len), &place);
}

EXPORT(int32_t, name_with_version)(uint32_t text_len) {
    WRITES(semver_name_with_version(TEXT(0, text_len), OUT, &needed));
}

EXPORT(int32_t, version_reference)(uint32_t text_len) {
    WRITES(semver_version_reference(TEXT(0, text_len), OUT, &needed));
}

EXPORT(int32_t, dependency)(uint32_t grammar, uint32_t text_len) {
    WRITES(semver_dependency(grammar, TEXT(0, text_len), OUT, &needed));
}

EXPORT(int32_t, export_name)(uint32_t path_len) {
    WRITES(semver_export_name(TEXT(0, path_len), OUT, &needed));
}

EXPORT(int32_t, range_fits)(address handle, uint32_t version_len, uint32_t pre_releases) {
    return semver_req_fits(RANGE(handle), TEXT(0, version_len), pre_releases);
}

EXPORT(int32_t, range_is_tag)(address handle) {
    return semver_req_is_tag(RANGE(handle));
}

EXPORT(int32_t, range_intersects)(address one, address other) {
    return semver_req_intersects(RANGE(one), RANGE(other));
}

EXPORT(int32_t, range_normal)(address handle) {
    WRITES(semver_req_normal(RANGE(handle), OUT, &needed));
}

EXPORT(int32_t, range_text)(address handle) {
    WRITES(semver_req_text(RANGE(handle), OUT, &needed));
}

EXPORT(int32_t, range_equal)(address one, address other) {
    return semver_req_equal(RANGE(one), RANGE(other));
}

EXPORT(int32_t, list_filter)(address list, address range, uint32_t pre_releases) {
    WRITES(semver_list_filter(LIST(list), RANGE(range), pre_releases, ANSWERS, &needed));
}

EXPORT(int32_t, list_best)(address list, address range, uint32_t pre_releases) {
    return semver_list_best(LIST(list), RANGE(range), pre_releases, &place);
}

EXPORT(int32_t, list_lowest)(address list, address range, uint32_t pre_releases) {
    return semver_list_lowest(LIST(list), RANGE(range), pre_releases, &place);
}
