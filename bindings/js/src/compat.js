// node-semver's names. NODE_SEMVER.md says where the answers differ.

import { coerce } from './compat/coerce.js';
import { Comparator } from './compat/comparator.js';
import { Range } from './compat/range.js';
import {
  gtr, intersects, ltr, maxSatisfying, minSatisfying, minVersion, outside, satisfies, simplifyRange, subset, toComparators, validRange,
} from './compat/ranges.js';
import { SemVer, compareIdentifiers, rcompareIdentifiers } from './compat/semver.js';
import {
  clean, cmp, compare, compareBuild, compareLoose, diff, eq, gt, gte, inc, lt, lte, major, minor, neq, parse, patch, prerelease, rcompare,
  rsort, sort, valid,
} from './compat/versions.js';

export const SEMVER_SPEC_VERSION = '2.0.0';
export const RELEASE_TYPES = ['major', 'premajor', 'minor', 'preminor', 'patch', 'prepatch', 'prerelease'];

export { coerce } from './compat/coerce.js';
export { Comparator } from './compat/comparator.js';
export { Range } from './compat/range.js';
export {
  gtr, intersects, ltr, maxSatisfying, minSatisfying, minVersion, outside, satisfies, simplifyRange, subset, toComparators, validRange,
} from './compat/ranges.js';
export { SemVer, compareIdentifiers, rcompareIdentifiers } from './compat/semver.js';
export {
  clean, cmp, compare, compareBuild, compareLoose, diff, eq, gt, gte, inc, lt, lte, major, minor, neq, parse, patch, prerelease, rcompare,
  rsort, sort, valid,
} from './compat/versions.js';

export default {
  Comparator, RELEASE_TYPES, Range, SEMVER_SPEC_VERSION, SemVer, clean, cmp, coerce, compare, compareBuild, compareIdentifiers,
  compareLoose, diff, eq, gt, gte, gtr, inc, intersects, lt, lte, ltr, major, maxSatisfying, minSatisfying, minVersion, minor, neq,
  outside, parse, patch, prerelease, rcompare, rcompareIdentifiers, rsort, satisfies, simplifyRange, sort, subset, toComparators,
  valid, validRange,
};
