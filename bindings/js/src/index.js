// Versions and version ranges of npm and JSR.

import { INVALID_VERSION, NO, NOT_UTF8, NO_MEMORY, TAG, YES, ask1, ask2, indexesOfBytes, json, outOfMemory, text, wasm, write } from './calls.js';
import {
  DEPENDENCY, NAME_WITH_VERSION, PACKAGE, RANGE, REFERENCE, VERSION_REFERENCE, errorOf, expectBoolean, expectOptions, expectString, invalid,
  kindOf, questionOf, reasonOf, versionText, withIndexes,
} from './errors.js';
import { askFits } from './held.js';
import { filterList, findInList, linesOf, simplifyForList, sortList } from './lists.js';
import { VersionList } from './ranges.js';
import { askDifference, askIncrement, isReleaseType, nextVersion } from './steps.js';
import { Version, compareTexts } from './versions.js';

export { PackageSyntaxError, RangeSyntaxError, TagError, VersionSyntaxError } from './errors.js';
export { Range, VersionList } from './ranges.js';
export { IncrementError } from './steps.js';
export { Version } from './versions.js';

const OF_LIST = ['grammar', 'preReleases', 'skipInvalid'];

/** The text of a range, and how it's asked; most are asked without options. */
function questionOfOne(range, options, names) {
  if (typeof range === 'string' && options === undefined) return { source: range, grammar: 0, name: 'npm', pre: 0 };
  const { texts: [source], ...settings } = questionOf({ range }, options, names);
  return { source, ...settings };
}

export function matches(range, version, options) {
  const tested = versionText(version, 'version');
  const { source, grammar, pre } = questionOfOne(range, options);
  const code = askFits(grammar, source, tested, pre);
  if (code >= 0) return code === YES;
  throw errorOf(code, grammar, [source], [tested]);
}

/** Asks about a range and a version; the answer is yes or no. */
function askOutside(call, version, range, options) {
  const tested = versionText(version, 'version');
  const { source, grammar, pre } = questionOfOne(range, options);
  const code = ask2(call, grammar, source, tested, pre);
  if (code >= 0) return code === YES;
  throw errorOf(code, grammar, [source], [tested]);
}

export function isAbove(version, range, options) {
  return askOutside(wasm.above, version, range, options);
}

export function isBelow(version, range, options) {
  return askOutside(wasm.below, version, range, options);
}

/** Whether invalid versions are left out. */
function skipsInvalid(options) {
  return expectBoolean(options?.skipInvalid ?? false, 'options.skipInvalid');
}

/** What `ask` returns of a list of versions in which invalid ones match nothing. */
function askLenient(versions, ask) {
  const list = new VersionList(versions);
  try {
    return ask(list);
  } finally {
    list.free();
  }
}

export function filter(range, versions, options) {
  const { source, grammar, name, pre } = questionOfOne(range, options, OF_LIST);
  if (!skipsInvalid(options)) return filterList(grammar, source, versions, pre);
  return askLenient(versions, (list) => list.filter(source, { grammar: name, preReleases: pre === 1 }));
}

export function best(range, versions, options) {
  const { source, grammar, name, pre } = questionOfOne(range, options, OF_LIST);
  if (!skipsInvalid(options)) return findInList(wasm.best, grammar, source, versions, pre);
  return askLenient(versions, (list) => list.best(source, { grammar: name, preReleases: pre === 1 }));
}

export function lowest(range, versions, options) {
  const { source, grammar, name, pre } = questionOfOne(range, options, OF_LIST);
  if (!skipsInvalid(options)) return findInList(wasm.lowest, grammar, source, versions, pre);
  return askLenient(versions, (list) => list.lowest(source, { grammar: name, preReleases: pre === 1 }));
}

export function simplify(range, versions, options) {
  const { source, grammar, pre } = questionOfOne(range, options);
  return simplifyForList(grammar, source, versions, pre);
}

export function sort(versions, options) {
  expectOptions(options, ['skipInvalid']);
  return skipsInvalid(options) ? askLenient(versions, (list) => list.sort()) : sortList(versions);
}

export function compare(one, other) {
  if (one instanceof Version) return one.compare(other);
  return compareTexts(versionText(one, 'one'), versionText(other, 'other'));
}

export function increment(version, releaseType, options = {}) {
  const source = versionText(version, 'version');
  if (!isReleaseType(releaseType)) throw new TypeError(`releaseType must be one of node-semver's, not ${String(releaseType)}`);
  if (options === null || typeof options !== 'object') throw new TypeError(`options must be an object, not ${kindOf(options)}`);
  const { identifier = '', base = 0 } = options;
  if (base !== 0 && base !== 1 && base !== false) throw new TypeError(`options.base must be 0, 1 or false, not ${String(base)}`);
  const code = askIncrement(source, releaseType, expectString(identifier, 'options.identifier'), base);
  const written = text();
  if (code === INVALID_VERSION || code === NOT_UTF8) new Version(source); // which throws if this is the one that is invalid
  return nextVersion(code, written, source);
}

export function coerce(source, options) {
  expectOptions(options, ['rtl', 'preReleases']);
  const tested = expectString(source, 'text');
  const { rtl = false, preReleases = false } = options ?? {};
  const end = expectBoolean(rtl, 'options.rtl') ? 1 : 0;
  const code = ask1(wasm.coerce, end, tested, expectBoolean(preReleases, 'options.preReleases') ? 1 : 0);
  if (code >= 0) return code === YES ? text() : undefined;
  throw errorOf(code, 0, [], [tested]);
}

export function difference(one, other) {
  const texts = [versionText(one, 'one'), versionText(other, 'other')];
  const kind = askDifference(...texts);
  if (kind === undefined) compareTexts(...texts); // which throws
  return kind;
}

/** Asks about two ranges; the answer is yes or no. */
function askRanges(call, one, other, options) {
  const { texts, grammar, pre } = questionOf({ one, other }, options);
  const code = ask2(call, grammar, texts[0], texts[1], pre);
  if (code >= 0) return code === YES;
  throw errorOf(code, grammar, texts, [], wasm.place());
}

export function isSubset(one, other, options) {
  return askRanges(wasm.within, one, other, options);
}

export function counterexample(one, other, options) {
  return isSubset(one, other, options) ? undefined : text();
}

export function isEquivalent(one, other, options) {
  return askRanges(wasm.equivalent, one, other, options);
}

export function intersects(one, other, options) {
  return askRanges(wasm.intersects, one, other, options);
}

/** The text that the call wrote if it answered yes. */
function textIf(code, grammar, ranges, place = 0, list = undefined) {
  if (code === YES) return text();
  if (code === NO) return undefined;
  throw errorOf(code, grammar, ranges, [], place, list);
}

export function common(ranges, options) {
  if (!Array.isArray(ranges)) throw new TypeError(`ranges must be an array, not ${kindOf(ranges)}`);
  const named = Object.fromEntries(Array.from(ranges, (range, index) => [`ranges[${index}]`, range]));
  const { texts, grammar, pre } = questionOf(named, options);
  return textIf(ask1(wasm.common_all, grammar, linesOf(texts), pre), grammar, texts, wasm.place(), 'ranges');
}

export function minVersion(range, options) {
  const { source, grammar, pre } = questionOfOne(range, options);
  return textIf(ask1(wasm.min_version, grammar, source, pre), grammar, [source]);
}

export function canonical(range, options) {
  const { source, grammar } = questionOfOne(range, options);
  return textIf(ask1(wasm.normal, grammar, source), grammar, [source]);
}

export function explain(range, options) {
  const { source, grammar, name, pre } = questionOfOne(range, options);
  const code = ask1(wasm.explain, grammar, source, pre);
  if (code === TAG) return { tag: canonical(source, { grammar: name }) };
  if (code !== YES) throw errorOf(code, grammar, [source]);
  const { alternatives, normal } = json();
  const indexes = indexesOfBytes(source);
  return { alternatives: alternatives.map((it) => alternativeOf(it, indexes)), canonical: normal };
}

function alternativeOf({ text, error, comparators, start, end, lowest, 'pre-releases': preReleases }, indexes) {
  if (error) return { text, error: withIndexes(error, indexes) };
  return { text, comparators: comparators.map((it) => ({ text: it.text, start: it.start, end: it.end })), start, end, preReleases, lowest };
}

export function diagnose(range, options) {
  const { source, grammar } = questionOfOne(range, options);
  return reasonOf(RANGE, grammar, source) ?? undefined;
}

/** The number of the grammar that the options name. */
function grammarOf(options) {
  return questionOf({}, options).grammar;
}

export function parsePackage(specifier, options) {
  return packageOf(partsOfKind(PACKAGE, grammarOf(options), specifier));
}

export function parseReference(specifier) {
  const found = partsOfKind(REFERENCE, 0, specifier);
  return { kind: found.kind, package: packageOf(found.package), path: found.path, export: found.export };
}

export function parseNameWithVersion(specifier) {
  return partsOfKind(NAME_WITH_VERSION, 0, specifier);
}

export function parseVersionReference(specifier) {
  return partsOfKind(VERSION_REFERENCE, 0, specifier);
}

export function parseDependency(specifier, options) {
  const found = partsOfKind(DEPENDENCY, grammarOf(options), specifier);
  return { kind: found.kind, package: packageOf(found.package), canonical: found.normal };
}

export function exportName(path) {
  const code = wasm.export_name(write(expectString(path, 'path')));
  if (code === YES) return text();
  throw code === NO_MEMORY ? outOfMemory() : invalid(PACKAGE, 0, path);
}

/** The parts of a text of a kind, from the JSON of the call that parses it. */
function partsOfKind(kind, grammar, specifier) {
  const code = kind.parse(grammar, expectString(specifier, 'specifier'));
  if (code === YES) return json();
  throw code === NO_MEMORY ? outOfMemory() : invalid(kind, grammar, specifier);
}

function packageOf({ scope, name, requirement, normal }) {
  return { scope, name, range: requirement, canonical: normal };
}

export function mayBeTag(name) {
  return wasm.may_be_tag(write(expectString(name, 'name'))) === YES;
}
