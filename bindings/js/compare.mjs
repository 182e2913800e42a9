// Asks node-semver and deno-semver/compat the same random questions, and says why answers differ:
//
//     node compare.mjs NODE_SEMVER [QUESTIONS] [SEED..]
//
// NODE_SEMVER is the folder of node-semver, QUESTIONS how many each call is asked by each seed; without a seed it takes a random one. The
// status is 1 if a difference is neither a documented one nor shown wrong by node-semver's own `satisfies`.

import { createRequire } from 'node:module';
import compat from './out/package/compat.js';
import { Texts } from './tests/random.mjs';

Error.stackTraceLimit = 0; // many calls throw, and a trace takes longer than the rest

const [folder, count = '50000', ...given] = process.argv.slice(2);
const seeds = given.length ? given.map(Number) : [Math.floor(Math.random() * 2 ** 32)];
const require = createRequire(import.meta.url);
const semver = require(folder);
const { version: release } = require(`${folder}/package.json`);
const IS_OLD = release.startsWith('7.3.');
let texts;

const WRONG = "node-semver: wrong by its own satisfies";
const LARGE = 'numbers of pre-releases above 2^53 - 1';
const UNEXPLAINED = 'UNEXPLAINED';

// ---- questions

const OPTIONS = [undefined, undefined, true, { loose: true }, { includePrerelease: true }, { loose: true, includePrerelease: true }];
const OPERATORS = ['', '=', '==', '===', '!=', '!==', '>', '>=', '<', '<=', '=>'];
const RELEASE_TYPES = ['major', 'minor', 'patch', 'premajor', 'preminor', 'prepatch', 'prerelease', 'pre', 'release'];
const IDENTIFIERS = [undefined, undefined, '', 'a', 'beta', 'rc', '1', 'a.1', 'a b'];
const BASES = [undefined, '0', '1', false];

const COERCE_OPTIONS = [undefined, { rtl: true }, { includePrerelease: true }, { rtl: true, includePrerelease: true }];
const PARTS = ['1', '2', '10', '01', '0', '.', '.', '.', '-', '+', 'a', 'rc', 'v', ' ', '1234567890123456', '12345678901234567', '-rc.1', '+b.2', '/'];

const options = () => texts.pick(OPTIONS);

/** A string that may contain versions. */
const containing = () => Array.from({ length: 1 + texts.below(9) }, () => texts.pick(PARTS)).join('');

/** Ranges as they are usually written, and sometimes odd ones. */
const range = () => (texts.below(10) ? texts.range() : texts.odd());
const version = () => (texts.below(20) ? texts.version() : texts.odd());
const versions = () => texts.several(10, version);
const comparator = () => (texts.below(10) ? texts.comparator() : texts.odd());

/** A value of JSON, in which an object is what it shows. */
function shown(value) {
  if (Array.isArray(value)) return value.map(shown);
  if (typeof value === 'symbol') return 'any';
  if (typeof value !== 'object' || value === null) return value;
  const { raw, loose } = value;
  if (value.set) return { raw, text: value.range, loose, includePrerelease: value.includePrerelease, set: shown(value.set) };
  if (value.operator !== undefined) return { operator: value.operator, loose, value: value.value, version: value.semver.version };
  const { version: displayed, major, minor, patch, prerelease, build } = value;
  return { raw, displayed, numbers: [major, minor, patch], prerelease, build, loose };
}

/** The answer, or how the call fails. */
function answer(library, ask) {
  try {
    return shown(ask(library));
  } catch (error) {
    return `throws ${error.name}`;
  }
}

// ---- why answers differ

/** Why an answer differs about texts that both read. 7.3 doesn't take whitespace out of them. */
function whyTextsDiffer(asked) {
  const texts = asked.flat().filter((it) => typeof it === 'string');
  if (IS_OLD && texts.some((it) => /^\s|\s$|\s\s|[^\S ]/.test(it))) return 'whitespace';
  return texts.some((it) => /\d{16}/.test(it)) ? LARGE : UNEXPLAINED;
}

/** Versions near the bounds of ranges, in which a search finds what two ranges differ in. */
function candidates(...ranges) {
  const found = new Set(['0.0.0', '0.0.0-0', '0.0.0-a']);
  for (const [, major, minor = '0', patch = '0', pre] of ranges.join(' ').matchAll(/(\d+)(?:\.(\d+))?(?:\.(\d+))?(-[\w.]+)?/g)) {
    const [x, y, z] = [major, minor, patch].map(Number);
    for (const numbers of [[x, y, z], [x, y, z + 1], [x, y, z - 1], [x, y + 1, 0], [x, y - 1, 9], [x + 1, 0, 0], [x - 1, 9, 9]]) {
      if (numbers.some((it) => it < 0)) continue;
      const text = numbers.join('.');
      for (const end of ['', '-0', '-a', '-a.0', '-zz', pre ?? '', pre ? `${pre}.0` : '']) found.add(text + end);
    }
  }
  return [...found];
}

/** Whether node-semver says of a version that it decides a question about two ranges, by whether each matches it. */
function hasWitness([one, other, its], isWitness) {
  return candidates(one, other).some((item) => isWitness(semver.satisfies(item, one, its), semver.satisfies(item, other, its)));
}

function whyIntersectsDiffers(asked, ours) {
  return hasWitness(asked, (one, other) => one && other) === ours ? WRONG : whyTextsDiffer(asked);
}

function whySubsetDiffers(asked, ours) {
  return hasWitness(asked, (one, other) => one && !other) !== ours ? WRONG : whyTextsDiffer(asked);
}

function whyMinVersionDiffers([text, its], ours, theirs) {
  const isMatch = (found) => found !== null && semver.satisfies(found.displayed, text, its);
  const isWrong = theirs !== null && !isMatch(theirs);
  return isWrong || (isMatch(ours) && (theirs === null || semver.lt(ours.displayed, theirs.displayed))) ? WRONG : whyTextsDiffer([text]);
}

function whyIncDiffers([item, type, its, identifier, base]) {
  if (!type.startsWith('pre')) return type === 'release' ? 'a kind that 7.6 lacks' : whyTextsDiffer([item]);
  if (identifier === 'a b') return 'identifiers that no version has';
  if (identifier === 'a.1') return 'several identifiers';
  if (IS_OLD && (base || base === false)) return 'a first number';
  if (IS_OLD && identifier === '1') return 'an identifier that is a number';
  return whyTextsDiffer([item]);
}

function whyCoerceDiffers([text, its]) {
  return IS_OLD && its?.includePrerelease ? 'pre-releases of a string' : whyTextsDiffer([text]);
}

function whyDiffDiffers([one, other]) {
  const [low, high] = [one, other].map((item) => semver.parse(item)).sort((a, b) => a && b && a.compare(b));
  const isToRelease = low?.prerelease.length && high && !high.prerelease.length;
  const isFromRelease = IS_OLD && low && high && !low.prerelease.length !== !high.prerelease.length;
  return isToRelease || isFromRelease ? 'steps between releases and pre-releases' : whyTextsDiffer([one, other]);
}

/** The text of the next version of a held one; null where there is none. */
function next(held, ...step) {
  try {
    return held.inc(...step).version;
  } catch {
    return null;
  }
}

// ---- the calls: what each is asked, why an answer may differ, and how it is asked if it isn't a function of the library

const CALLS = {
  satisfies: [() => [version(), range(), options()]],
  maxSatisfying: [() => [versions(), range(), options()]],
  minSatisfying: [() => [versions(), range(), options()]],
  validRange: [() => [range(), options()]],
  toComparators: [() => [range(), options()]],
  outside: [() => [version(), range(), texts.pick(['<', '>', '=']), options()]],
  gtr: [() => [version(), range(), options()]],
  ltr: [() => [version(), range(), options()]],
  simplifyRange: [() => [versions(), range(), options()]],
  minVersion: [() => [range(), options()], whyMinVersionDiffers],
  intersects: [() => [range(), range(), options()], whyIntersectsDiffers],
  subset: [() => [range(), range(), options()], whySubsetDiffers],
  Range: [() => [range(), options()], undefined, ({ Range }, ...asked) => new Range(...asked)],
  'Range.test': [() => [version(), range(), options()], undefined, ({ Range }, item, ...asked) => new Range(...asked).test(item)],
  Comparator: [() => [comparator(), options()], undefined, ({ Comparator }, ...asked) => new Comparator(...asked)],
  'Comparator.test': [
    () => [version(), comparator(), options()],
    undefined,
    ({ Comparator }, item, ...asked) => new Comparator(...asked).test(item),
  ],
  'Comparator.intersects': [
    () => [comparator(), comparator(), options()],
    whyIntersectsDiffers,
    ({ Comparator }, one, other, its) => new Comparator(one, its).intersects(new Comparator(other, its), its),
  ],
  SemVer: [() => [version(), options()], undefined, ({ SemVer }, ...asked) => new SemVer(...asked)],
  'SemVer.compare': [
    () => [version(), version(), options()],
    undefined,
    ({ SemVer }, one, other, its) => new SemVer(one, its).compare(new SemVer(other, its)),
  ],
  'SemVer.inc': [
    () => [version(), texts.pick(RELEASE_TYPES), options(), texts.pick(IDENTIFIERS), texts.pick(BASES)],
    whyIncDiffers,
    ({ SemVer }, item, type, its, ...step) => next(new SemVer(item, its), type, ...step),
  ],
  parse: [() => [version(), options()]],
  valid: [() => [version(), options()]],
  clean: [() => [version(), options()]],
  major: [() => [version(), options()]],
  prerelease: [() => [version(), options()]],
  compare: [() => [version(), version(), options()]],
  compareBuild: [() => [version(), version(), options()]],
  compareLoose: [() => [version(), version()]],
  rcompare: [() => [version(), version(), options()]],
  cmp: [() => [version(), texts.pick(OPERATORS), version(), options()]],
  inc: [() => [version(), texts.pick(RELEASE_TYPES), options(), texts.pick(IDENTIFIERS), texts.pick(BASES)], whyIncDiffers],
  diff: [() => [version(), version()], whyDiffDiffers],
  coerce: [() => [containing(), texts.pick(COERCE_OPTIONS)], whyCoerceDiffers],
  sort: [() => [versions(), options()]],
  rsort: [() => [versions(), options()]],
};

/** Sorting changes a list. */
function copy(argument) {
  return Array.isArray(argument) ? [...argument] : argument;
}

/** Asks a call, and counts why answers differ: the reasons, each with how often it is one, and the shortest example. */
function run(name, [ask, why = whyTextsDiffer, call = (library, ...asked) => library[name](...asked)], reasons) {
  for (let i = 0; i < Number(count); i++) {
    const asked = ask();
    const [ours, theirs] = [compat, semver].map((library) => answer(library, (it) => call(it, ...asked.map(copy))));
    if (JSON.stringify(ours) === JSON.stringify(theirs)) continue;
    const reason = why(asked, ours, theirs);
    const [times, example] = reasons.get(reason) ?? [0, [asked, ours, theirs]];
    reasons.set(reason, [times + 1, shorter(example, [asked, ours, theirs])]);
  }
}

function shorter(one, other) {
  return JSON.stringify(other).length < JSON.stringify(one).length ? other : one;
}

const found = Object.fromEntries(Object.keys(CALLS).map((name) => [name, new Map()]));
for (const seed of seeds) {
  texts = new Texts(seed);
  for (const [name, call] of Object.entries(CALLS)) run(name, call, found[name]);
}

let isExplained = true;
console.log(`node-semver ${release}, ${count * seeds.length} questions a call, by the seeds ${seeds.join(', ')}`);
for (const [name, reasons] of Object.entries(found)) {
  const sorted = [...reasons].sort(([, [a]], [, [b]]) => b - a);
  console.log(`${name}: ${sorted.reduce((sum, [, [times]]) => sum + times, 0)} differ`);
  for (const [reason, [times, [asked, ours, theirs]]] of sorted) {
    console.log(`  ${times} ${reason}: ${JSON.stringify(asked).slice(1, -1)}: ${JSON.stringify(ours)}, there ${JSON.stringify(theirs)}`);
    isExplained &&= reason !== UNEXPLAINED;
  }
}
process.exitCode = isExplained ? 0 : 1;
