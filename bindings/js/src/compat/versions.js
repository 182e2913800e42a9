// node-semver's functions of versions.

import { YES, outOfMemory, places, wasm, write } from '../calls.js';
import { kindOf } from '../errors.js';
import { linesOf } from '../lists.js';
import { askDifference } from '../steps.js';
import { isUsual } from './grammar.js';
import { SemVer, orderOf } from './semver.js';

export function parse(version, options, throwErrors = false) {
  if (version instanceof SemVer) return version;
  try {
    return new SemVer(version, options);
  } catch (error) {
    if (throwErrors || !(error instanceof TypeError)) throw error;
    return null;
  }
}

/** The text of a version as it is displayed, and `TypeError` where it's invalid. */
function expectText(version) {
  return isUsual(version) ? version : parse(version, undefined, true).version;
}

export function valid(version, options) {
  if (isUsual(version)) return version;
  return parse(version, options)?.version ?? null;
}

export function clean(version, options) {
  return valid(version.trim().replace(/^[=v]+/, ''), options);
}

export function major(version, options) {
  return new SemVer(version, options).major;
}

export function minor(version, options) {
  return new SemVer(version, options).minor;
}

export function patch(version, options) {
  return new SemVer(version, options).patch;
}

export function prerelease(version, options) {
  const parsed = parse(version, options);
  return parsed?.prerelease.length ? parsed.prerelease : null;
}

// ---- two versions

export function compare(one, other, options) {
  if (isUsual(one) && isUsual(other)) return orderOf(one, other);
  return new SemVer(one, options).compare(new SemVer(other, options));
}

export function rcompare(one, other, options) {
  return compare(other, one, options);
}

export function compareLoose(one, other) {
  return compare(one, other, true);
}

export function compareBuild(one, other, options) {
  const [first, second] = [new SemVer(one, options), new SemVer(other, options)];
  return first.compare(second) || first.compareBuild(second);
}

export function gt(one, other, options) {
  return compare(one, other, options) > 0;
}

export function lt(one, other, options) {
  return compare(one, other, options) < 0;
}

export function eq(one, other, options) {
  return compare(one, other, options) === 0;
}

export function neq(one, other, options) {
  return compare(one, other, options) !== 0;
}

export function gte(one, other, options) {
  return compare(one, other, options) >= 0;
}

export function lte(one, other, options) {
  return compare(one, other, options) <= 0;
}

const OPERATORS = { '': eq, '=': eq, '==': eq, '!=': neq, '>': gt, '>=': gte, '<': lt, '<=': lte };

export function cmp(one, operator, other, options) {
  const text = (version) => (version instanceof SemVer ? version.version : version);
  if (operator === '===') return text(one) === text(other);
  if (operator === '!==') return text(one) !== text(other);
  if (!Object.hasOwn(OPERATORS, operator)) throw new TypeError(`Invalid operator: ${operator}`);
  return OPERATORS[operator](one, other, options);
}

// ---- lists

/** The places of versions by precedence, and of those that differ in the build alone by that. */
function sortedPlaces(versions) {
  const code = wasm.sort(write(linesOf(versions.map(({ version }) => version))), versions.length);
  if (code !== YES) throw outOfMemory();
  const sorted = Array.from(places());
  return versions.some(({ build }) => build.length > 0) ? sortedByBuild(versions, sorted) : sorted;
}

function sortedByBuild(versions, sorted) {
  const runs = [];
  for (const place of sorted) {
    const run = runs.at(-1);
    if (run && versions[run[0]].compare(versions[place]) === 0) run.push(place);
    else runs.push([place]);
  }
  return runs.flatMap((run) => run.sort((a, b) => versions[a].compareBuild(versions[b])));
}

/** The list as it is, with its items in the order of these places. */
function reorder(list, order) {
  const items = order.map((place) => list[place]);
  items.forEach((item, index) => {
    list[index] = item;
  });
  return list;
}

/** The versions of a list. Node's sort parses no list of one item, and so accepts any. */
function versionsOf(list, options) {
  if (!Array.isArray(list)) throw new TypeError(`list must be an array, not ${kindOf(list)}`);
  return list.length < 2 ? [] : list.map((version) => new SemVer(version, options));
}

export function sort(list, options) {
  const versions = versionsOf(list, options);
  return versions.length ? reorder(list, sortedPlaces(versions)) : list;
}

export function rsort(list, options) {
  const reversed = versionsOf(list, options).reverse();
  if (reversed.length === 0) return list;
  const order = sortedPlaces(reversed).reverse();
  return reorder(list, order.map((place) => reversed.length - 1 - place));
}

// ---- the step to another version

export function inc(version, releaseType, options, identifier, identifierBase) {
  if (typeof options === 'string') return inc(version, releaseType, undefined, options, identifier);
  try {
    return new SemVer(version instanceof SemVer ? version.version : version, options).inc(releaseType, identifier, identifierBase).version;
  } catch (error) {
    if (error instanceof RangeError) throw error;
    return null;
  }
}

export function diff(one, other) {
  return askDifference(expectText(one), expectText(other));
}
