// node-semver's functions of ranges.

import { YES, ask2, codes, outOfMemory, wasm } from '../calls.js';
import { kindOf } from '../errors.js';
import { linesOf } from '../lists.js';
import { haveCommon, isWithin, lowestOf } from './asked.js';
import { Comparator, parsed } from './comparator.js';
import { isUsual } from './grammar.js';
import { optionsOf } from './options.js';
import { Range, expectReadable, isMatch, readable } from './range.js';
import { SemVer } from './semver.js';
import { compare } from './versions.js';

export function satisfies(version, range, options) {
  const settings = optionsOf(options);
  const read = readable(range, settings);
  return read !== undefined && isMatch(read, version, settings);
}

export function validRange(range, options) {
  const read = readable(range, optionsOf(options));
  return read ? read.range || '*' : null;
}

export function toComparators(range, options) {
  return expectReadable(range, optionsOf(options)).set.map((comparators) => comparators.map(({ value }) => value));
}

export function minVersion(range, options) {
  const settings = optionsOf(options);
  const lowest = lowestOf(expectReadable(range, settings), Boolean(settings.includePrerelease));
  return lowest === null ? null : new SemVer(lowest);
}

/** Asks about two ranges. */
function askBoth(call, one, other, options) {
  const settings = optionsOf(options);
  return call(expectReadable(one, settings), expectReadable(other, settings), Boolean(settings.includePrerelease));
}

export function intersects(one, other, options) {
  return askBoth(haveCommon, one, other, options);
}

export function subset(sub, dom, options) {
  return askBoth(isWithin, sub, dom, options);
}

// ---- lists of versions

/** The version of the list that `call`, the highest or the lowest, finds among those that match. */
function find(call, versions, range, options) {
  if (!Array.isArray(versions)) throw new TypeError(`versions must be an array, not ${kindOf(versions)}`);
  const settings = optionsOf(options);
  const read = readable(range, settings);
  const places = read ? matchingPlaces(read, versions, settings) : [];
  if (places.length === 0) return null;
  const lines = linesOf(places.map((place) => lineOf(versions[place], settings)));
  if (ask2(call, 0, '*', lines, 1) !== YES) throw outOfMemory();
  return versions[places[wasm.place()]];
}

/** The text of a version for a list of lines; empty where it's invalid. */
function lineOf(version, options) {
  if (isUsual(version)) return version;
  return (version && parsed(version, options)?.version) || '';
}

/** The places of the versions that match. Pre-releases of 0.0.0, which the library isn't asked about, are tested one by one. */
function matchingPlaces(read, versions, options) {
  const lines = linesOf(versions.map((version) => lineOf(version, options)));
  if (ask2(wasm.filter, 0, read.range || '*', lines, Number(Boolean(options.includePrerelease))) !== YES) throw outOfMemory();
  const answers = codes();
  const isPlaceOfMatch = (version, place) => (isUsual(version) ? answers[place] === YES : isMatch(read, version, options));
  return versions.flatMap((version, place) => (isPlaceOfMatch(version, place) ? [place] : []));
}

export function maxSatisfying(versions, range, options) {
  return find(wasm.best, versions, range, options);
}

export function minSatisfying(versions, range, options) {
  return find(wasm.lowest, versions, range, options);
}

export function simplifyRange(versions, range, options) {
  const sorted = [...versions].sort((one, other) => compare(one, other, options));
  const simplified = runsOf(sorted, (version) => satisfies(version, range, options)).map((run) => textOfRun(run, sorted)).join(' || ');
  const original = typeof range.raw === 'string' ? range.raw : String(range);
  return simplified.length < original.length ? simplified : range;
}

/** The first and the last one of each run of versions that match. */
function runsOf(sorted, isMatch) {
  const runs = [];
  let isInRun = false;
  for (const version of sorted) {
    const matches = isMatch(version);
    if (matches && isInRun) runs.at(-1).last = version;
    else if (matches) runs.push({ first: version, last: version });
    isInRun = matches;
  }
  return runs;
}

function textOfRun({ first, last }, sorted) {
  const [begins, ends] = [first === sorted[0], last === sorted.at(-1)];
  if (begins && ends) return '*';
  if (ends) return `>=${first}`;
  if (first === last) return String(first);
  return begins ? `<=${last}` : `${first} - ${last}`;
}

// ---- versions outside a range

export function outside(version, range, direction, options) {
  const [tested, read] = [new SemVer(version, options), new Range(range, options)];
  if (direction !== '<' && direction !== '>') throw new TypeError('Must provide a hilo val of "<" or ">"');
  return !read.test(tested) && read.set.every((comparators) => isBeyond(tested, comparators, direction));
}

/** Whether a version that doesn't match lies beyond the comparators in this direction, as node-semver decides it by two of them. */
function isBeyond(version, comparators, direction) {
  const sign = direction === '>' ? 1 : -1;
  const bounds = comparators.map((it) => (it.semver === Comparator.ANY ? new Comparator('>=0.0.0') : it));
  let [far, near] = [bounds[0], bounds[0]];
  for (const bound of bounds) {
    if (sign * bound.semver.compare(far.semver) > 0) far = bound;
    else if (sign * bound.semver.compare(near.semver) < 0) near = bound;
  }
  if (far.operator.startsWith(direction)) return false;
  const order = sign * version.compare(near.semver);
  if (near.operator === `${direction}=`) return order >= 0;
  return order > 0 || (near.operator !== '' && near.operator !== direction);
}

export function gtr(version, range, options) {
  return outside(version, range, '>', options);
}

export function ltr(version, range, options) {
  return outside(version, range, '<', options);
}
