// What the library is asked of ranges that are read: `set` is a list of alternatives, each a list of comparators, and `range` is its text.
//
// The library begins a range that has an end at 0.0.0. Pre-releases of 0.0.0, which come before it, are thus compared with each comparator
// here. They come between few bounds, so that each question about them is one about some of them.

import { NO, YES, ask1, ask2, outOfMemory, text, wasm } from '../calls.js';
import { askFits } from '../held.js';
import { SemVer } from './semver.js';

const isAny = (comparator) => comparator.value === '';
const isPreOfZero = ({ major, minor, patch, prerelease }) => major === 0 && minor === 0 && patch === 0 && prerelease.length > 0;

/** The comparators as a range. */
export function textOf(set) {
  return set.map((comparators) => comparators.map(({ value }) => value).join(' ').trim()).join('||').trim();
}

/** Whether the version, a `SemVer`, matches. */
export function matches(read, version, includesPre) {
  return isPreOfZero(version) ? matchesEach(read.set, version, includesPre) : matchesText(read.range, version.version, includesPre);
}

/** Whether the text of a version that isn't a pre-release of 0.0.0 matches the comparators. */
export function matchesText(range, version, includesPre) {
  const code = askFits(0, range || '*', version, Number(includesPre));
  if (code < 0) throw outOfMemory();
  return code === YES;
}

function matchesEach(set, version, includesPre) {
  const allows = (comparator) => !isAny(comparator) && isPreOfZero(comparator.semver);
  return set.some((comparators) => comparators.every((it) => it.test(version)) && (includesPre || comparators.some(allows)));
}

/** Whether a range may match a pre-release of 0.0.0. */
function mayMatchPreOfZero({ range }, includesPre) {
  return includesPre || range.includes('0.0.0-');
}

/** Some pre-releases of 0.0.0, of which the ranges match one alike between two bounds, the lowest first; none where they match none. */
function preReleasesOfZero(ranges, includesPre) {
  if (!ranges.some((it) => mayMatchPreOfZero(it, includesPre))) return [];
  const comparators = ranges.flatMap(({ set }) => set.flat());
  const bounds = comparators.filter((it) => !isAny(it) && isPreOfZero(it.semver)).map(({ semver }) => semver.version);
  const versions = ['0.0.0-0', ...bounds.flatMap((bound) => [bound, `${bound}.0`])];
  return versions.map((version) => new SemVer(version)).sort((one, other) => one.compare(other));
}

/** The text of a range without pre-releases of 0.0.0. */
function fromZero(read, includesPre) {
  const textOfAlternative = mayMatchPreOfZero(read, includesPre) ? (it) => `${textOf([it])} >=0.0.0` : withoutZeros;
  return read.set.map(textOfAlternative).join('||');
}

/** Whether a comparator is like `<2.0.0-0`, which matches the releases that `<2.0.0` matches. */
function isEnd({ operator, semver }) {
  return operator === '<' && semver.prerelease.length === 1 && semver.prerelease[0] === 0;
}

/** The text of an alternative in which `<2.0.0` stands for `<2.0.0-0`, unless a bound is a pre-release of 2.0.0: it is answered ten times faster. */
function withoutZeros(comparators) {
  const preReleases = comparators.filter((it) => !isAny(it) && it.semver.prerelease.length > 0 && !isEnd(it));
  const isAlone = ({ semver }) => preReleases.every((it) => it.semver.compareMain(semver) !== 0);
  const texts = comparators.map((it) => (!isAny(it) && isEnd(it) && isAlone(it) ? it.value.slice(0, -'-0'.length) : it.value));
  return texts.join(' ') || '*';
}

/** The text of the lowest version that matches; null where there is none. */
export function lowestOf(read, includesPre) {
  const lowest = preReleasesOfZero([read], includesPre).find((it) => matchesEach(read.set, it, includesPre));
  if (lowest) return lowest.version;
  const code = ask1(wasm.min_version, 0, fromZero(read, includesPre), Number(includesPre));
  if (code !== YES && code !== NO) throw outOfMemory();
  return code === YES ? text() : null;
}

// ---- common versions, which are found by the bounds alone unless they may be pre-releases

const FIRST = { major: 0, minor: 0, patch: 0 };
const NO_END = { major: Infinity, minor: 0, patch: 0 };

const isBelow = (one, other) => (one.major - other.major || one.minor - other.minor || one.patch - other.patch) < 0;
const higher = (one, other) => (isBelow(one, other) ? other : one);
const lower = (one, other) => (isBelow(one, other) ? one : other);

/** The numbers of the lowest release above a version. */
function releaseAbove({ major, minor, patch, prerelease }) {
  return { major, minor, patch: prerelease.length ? patch : patch + 1 };
}

/** The releases that an alternative matches: from these numbers to below others. */
function releasesOf(comparators) {
  let [from, to] = [FIRST, NO_END];
  for (const { value, operator, semver } of comparators) {
    if (value === '') continue;
    if (operator === '>=' || operator === '') from = higher(from, semver);
    if (operator === '>') from = higher(from, releaseAbove(semver));
    if (operator === '<') to = lower(to, semver);
    if (operator === '<=' || operator === '') to = lower(to, releaseAbove(semver));
  }
  return { from, to };
}

function haveCommonRelease(one, other) {
  const theirs = other.set.map(releasesOf);
  return one.set.map(releasesOf).some((it) => theirs.some((that) => isBelow(higher(it.from, that.from), lower(it.to, that.to))));
}

/** The bounds that are pre-releases. Without `includePrerelease` a range matches no pre-releases but of their numbers. */
function preReleasesIn({ set }) {
  return set.flatMap((comparators) => comparators.filter((it) => !isAny(it) && it.semver.prerelease.length > 0 && !isEnd(it)));
}

function mayHaveCommonPre(one, other) {
  const theirs = preReleasesIn(other);
  return theirs.length > 0 && preReleasesIn(one).some((it) => theirs.some((that) => it.semver.compareMain(that.semver) === 0));
}

/** Whether a version matches both ranges. */
export function haveCommon(one, other, includesPre) {
  if (!includesPre && haveCommonRelease(one, other)) return true;
  return (includesPre || mayHaveCommonPre(one, other)) && haveCommonVersion(one, other, includesPre);
}

function haveCommonVersion(one, other, includesPre) {
  const isCommon = (version) => matchesEach(one.set, version, includesPre) && matchesEach(other.set, version, includesPre);
  return preReleasesOfZero([one, other], includesPre).some(isCommon) || askBoth(wasm.common, one, other, includesPre);
}

/** Whether the other range matches each version that the first one matches. */
export function isWithin(one, other, includesPre) {
  const isMissing = (version) => matchesEach(one.set, version, includesPre) && !matchesEach(other.set, version, includesPre);
  return !preReleasesOfZero([one, other], includesPre).some(isMissing) && askBoth(wasm.within, one, other, includesPre);
}

function askBoth(call, one, other, includesPre) {
  const code = ask2(call, 0, fromZero(one, includesPre), fromZero(other, includesPre), Number(includesPre));
  if (code < 0) throw outOfMemory();
  return code === YES;
}
