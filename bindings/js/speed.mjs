// Prints the times of calls, beside node-semver's in the same process:
//
//     node speed.mjs [--brief | --table] [NODE_SEMVER]
//
// A time is the best of five runs, in which both are asked in turn. The status is 1 where a call takes longer than node-semver's, by more than
// noise, in each of TRIES tries, or finding the place of an error longer than PARSES parses of a valid range of that length; and where no row
// asks a function of node-semver, or a method of its classes that compat has. With --brief each is asked less often. With --table the rows
// are those of tables in Markdown.

import { createRequire } from 'node:module';
import { performance } from 'node:perf_hooks';
import compat from './out/package/compat.js';
import * as semver from './out/package/index.js';
import { timesOfImports } from './tests/imports.mjs';

const [option, folder] = process.argv[2]?.startsWith('--') ? process.argv.slice(2) : [undefined, process.argv[2]];
const isBrief = option === '--brief';
const isTable = option === '--table';
const RUNS = 5;
const TRIES = isBrief ? 6 : 3;
const CALLS = isBrief ? 10_000 : 200_000;
const RANGES = isBrief ? 1_500 : 20_000; // more than either package caches
const LIST = isBrief ? 5_000 : 100_000;
const PARSES = 6;
// By so much, and by so many milliseconds a call, times of the same code differ.
const NOISE = 1.1;
const RESOLUTION = 5e-6;
const other = folder && createRequire(import.meta.url)(folder);
const version = folder && createRequire(import.meta.url)(`${folder}/package.json`).version;

/** The best time of each call, in milliseconds; of one that isn't there, undefined. */
function best(calls) {
  const times = calls.map((call) => call && Infinity);
  for (let run = 0; run < RUNS; run++) {
    calls.forEach((call, index) => {
      if (!call) return;
      const start = performance.now();
      call();
      times[index] = Math.min(times[index], performance.now() - start);
    });
  }
  return times;
}

/** A time in milliseconds as a text, in the unit of the table that it stands in. */
function shown(time) {
  const value = unit === 'µs' ? time * 1e3 : time;
  const digits = value < 10 ? 2 : value < 100 ? 1 : 0;
  return value.toLocaleString('en', { minimumFractionDigits: digits, maximumFractionDigits: digits });
}

function print(name, here, there = '') {
  console.log(isTable ? `| ${name} | ${here} | ${there} |` : `${name.padEnd(50)} ${here.padStart(10)} ${there.padStart(18)}`);
}

let unit;

/** Begins a table of times in this unit. */
function head(what, unitOfTable) {
  unit = unitOfTable;
  if (isTable) console.log(`\n| ${what}, ${unit} | Here | node-semver |\n|---|---|---|`);
  else print(`\n${what}, ${unit}`, 'here', version && `node-semver ${version}`);
}

function fail(message) {
  console.error(message);
  process.exitCode = 1;
}

/** Prints the milliseconds that `measured` returns, of which the first must be at most so many times the second. */
function row(name, measured, most = 1) {
  const isSlow = ([here, there = Infinity]) => here > there * most * NOISE + RESOLUTION;
  let times = measured();
  for (let tries = 1; tries < TRIES && isSlow(times); tries++) times = measured();
  print(name, ...times.map((time) => time && shown(time)));
  if (isSlow(times)) fail(`${name}: too slow`);
}

/** Prints the time of one of so many calls here and there, each of which is given its number. */
function each(name, calls, here, there) {
  const repeated = [here, there].map((call) => call && (() => {
    for (let i = 0; i < calls; i++) call(i);
  }));
  row(name, () => best(repeated).map((time) => time && time / calls));
}

/** Prints the time of a call here and there. */
function once(name, here, there, most) {
  row(name, () => best([here, there]), most);
}

// ---- what is asked: versions repeat after a thousand, since neither package caches them, and new ranges don't, since both cache those

const identifiers = ['alpha', 'beta', 'rc', 'x-y', '0', '20', '100'];
const OPERATORS = ['', '=', '===', '!=', '>', '>=', '<', '<='];
const FORMS = [(n) => `^1.${n}.0`, (n) => `~2.${n}.1-rc.1`, (n) => `>=0.${n} <3.${n}`, (n) => `1.${n}.x || ${n}.2.3`];
const TYPES = ['major', 'minor', 'patch', 'premajor', 'preminor', 'prepatch', 'prerelease'];
const RANGE = '>=1.2 <2 || 3';
const versions = Array.from({ length: 1000 }, (_, i) => `${i % 5}.${i % 17}.${i % 29}${i % 4 ? '' : `-rc.${i % 7}`}`);
const preReleases = identifiers.flatMap((one) => identifiers.map((another) => `1.2.3-${one}.${another}`));
const builds = versions.map((text, i) => `${text}+build.${i % 11}`);
const ranges = versions.map((_, i) => FORMS[i % FORMS.length](i % 20));
const comparators = versions.map((text, i) => `${['>', '>=', '<', '<=', ''][i % 5]}${text}`);
const long = Array.from({ length: LIST }, (_, i) => versions[(i * 7919) % versions.length]);
const shownLength = LIST.toLocaleString('en');

const at = (list, i) => list[i % list.length];
/** Another item of the list. */
const next = (list, i) => list[(i * 3 + 1) % list.length];
const newRange = (i) => FORMS[i % FORMS.length](i);
const invalid = (i) => `^1.2.${i}.4`;

// ---- this package's own functions

/** The sum of the numbers, so that each is asked. */
const numbers = ({ major, minor, patch }) => major + minor + patch;

function fails(call) {
  try {
    call();
    return false;
  } catch {
    return true;
  }
}

/** Where the mistake of a range begins. */
function startIn(text) {
  try {
    return new semver.Range(text);
  } catch (error) {
    return error.start;
  }
}

const there = (call) => (other ? call : undefined);
/** What a question is of compat here, and of node-semver there. */
const both = (question) => [compat, other].map((library) => library && question(library));
const range = new semver.Range(RANGE);
const held = versions.map((text) => new semver.Version(text));
const list = new semver.VersionList(long);
const others = other && { range: new other.Range(RANGE), versions: versions.map((text) => new other.SemVer(text)) };

const modules = [new URL('out/package/index.js', import.meta.url).href];
if (folder) modules.push(createRequire(import.meta.url).resolve(folder));

/** The best times of importing each. */
function imports() {
  const times = Array.from({ length: RUNS }, () => timesOfImports(modules));
  return modules.map((_, index) => Math.min(...times.map((it) => it[index])));
}

const comparing = (values) => (i) => at(values, i).compare(next(values, i));

function printOwn() {
  each('match a version and a held range', CALLS, (i) => range.matches(at(versions, i)), there((i) => others.range.test(at(versions, i))));
  each(
    'match two strings, always one range',
    CALLS,
    (i) => semver.matches(RANGE, at(versions, i)),
    there((i) => other.satisfies(at(versions, i), RANGE)),
  );
  each(
    'the same with a new range each time',
    RANGES,
    (i) => semver.matches(newRange(i), at(versions, i)),
    there((i) => other.satisfies(at(versions, i), newRange(i))),
  );
  each('compare two held versions', CALLS, comparing(held), other && comparing(others.versions));
  each(
    'the three numbers of a string',
    CALLS,
    (i) => numbers(new semver.Version(at(versions, i))),
    there((i) => numbers(new other.SemVer(at(versions, i)))),
  );
  each(
    'an error for an invalid range',
    RANGES,
    (i) => fails(() => semver.matches(invalid(i), '1.0.0')),
    there((i) => fails(() => new other.Range(invalid(i)))),
  );
}

function printOwnLists() {
  row('import, in a fresh process', imports);
  once('filter in one call', () => semver.filter(RANGE, long), there(() => long.filter((it) => others.range.test(it))));
  once('filter a `VersionList`', () => list.filter(range));
}

// ---- node-semver's names: what a library is asked of each, by the number of the call

/** Asks values of a class that were made of these texts: one of them, and another one. */
function ofHeld(Kind, texts, ask) {
  const values = texts.map((text) => new Kind(text));
  return (i) => ask(at(values, i), next(values, i), i);
}

/** Questions of versions, and of values that are held. */
const OF_VERSIONS = {
  parse: ({ parse }) => (i) => parse(at(versions, i)),
  valid: ({ valid }) => (i) => valid(at(versions, i)),
  clean: ({ clean }) => (i) => clean(` =v${at(versions, i)} `),
  inc: ({ inc }) => (i) => inc(at(versions, i), at(TYPES, i), 'beta'),
  diff: ({ diff }) => (i) => diff(at(versions, i), next(versions, i)),
  major: ({ major }) => (i) => major(at(versions, i)),
  minor: ({ minor }) => (i) => minor(at(versions, i)),
  patch: ({ patch }) => (i) => patch(at(versions, i)),
  prerelease: ({ prerelease }) => (i) => prerelease(at(versions, i)),
  compare: ({ compare }) => (i) => compare(at(versions, i), next(versions, i)),
  rcompare: ({ rcompare }) => (i) => rcompare(at(versions, i), next(versions, i)),
  compareLoose: ({ compareLoose }) => (i) => compareLoose(at(versions, i), next(versions, i)),
  compareBuild: ({ compareBuild }) => (i) => compareBuild(at(builds, i), next(builds, i)),
  gt: ({ gt }) => (i) => gt(at(versions, i), next(versions, i)),
  lt: ({ lt }) => (i) => lt(at(versions, i), next(versions, i)),
  eq: ({ eq }) => (i) => eq(at(versions, i), next(versions, i)),
  neq: ({ neq }) => (i) => neq(at(versions, i), next(versions, i)),
  gte: ({ gte }) => (i) => gte(at(versions, i), next(versions, i)),
  lte: ({ lte }) => (i) => lte(at(versions, i), next(versions, i)),
  cmp: ({ cmp }) => (i) => cmp(at(versions, i), at(OPERATORS, i), next(versions, i)),
  coerce: ({ coerce }) => (i) => coerce(`release ${at(versions, i)} of today`),
  compareIdentifiers: ({ compareIdentifiers }) => (i) => compareIdentifiers(at(identifiers, i), next(identifiers, i)),
  rcompareIdentifiers: ({ rcompareIdentifiers }) => (i) => rcompareIdentifiers(at(identifiers, i), next(identifiers, i)),
  SemVer: ({ SemVer }) => (i) => new SemVer(at(versions, i)),
  Comparator: ({ Comparator }) => (i) => new Comparator(at(comparators, i)),
  'SemVer format': ({ SemVer }) => ofHeld(SemVer, versions, (it) => it.format()),
  'SemVer toString': ({ SemVer }) => ofHeld(SemVer, versions, (it) => it.toString()),
  'SemVer compare': ({ SemVer }) => ofHeld(SemVer, versions, (it, that) => it.compare(that)),
  'SemVer compareMain': ({ SemVer }) => ofHeld(SemVer, versions, (it, that) => it.compareMain(that)),
  'SemVer comparePre': ({ SemVer }) => ofHeld(SemVer, preReleases, (it, that) => it.comparePre(that)),
  'SemVer compareBuild': ({ SemVer }) => ofHeld(SemVer, builds, (it, that) => it.compareBuild(that)),
  'SemVer inc': ({ SemVer }) => ofHeld(SemVer, versions, (it, _, i) => it.inc(at(TYPES, i), 'beta')),
  'Range format': ({ Range }) => ofHeld(Range, ranges, (it) => it.format()),
  'Range toString': ({ Range }) => ofHeld(Range, ranges, (it) => it.toString()),
  'Range test': ({ Range }) => ofHeld(Range, ranges, (it, _, i) => it.test(at(versions, i))),
  'Range intersects': ({ Range }) => ofHeld(Range, ranges, (it, that) => it.intersects(that)),
  'Comparator toString': ({ Comparator }) => ofHeld(Comparator, comparators, (it) => it.toString()),
  'Comparator test': ({ Comparator }) => ofHeld(Comparator, comparators, (it, _, i) => it.test(next(versions, i))),
  'Comparator intersects': ({ Comparator }) => ofHeld(Comparator, comparators, (it, that) => it.intersects(that)),
};

/** Questions of new ranges. */
const OF_RANGES = {
  Range: ({ Range }) => (i) => new Range(newRange(i)),
  satisfies: ({ satisfies }) => (i) => satisfies(at(versions, i), newRange(i)),
  toComparators: ({ toComparators }) => (i) => toComparators(newRange(i)),
  minVersion: ({ minVersion }) => (i) => minVersion(newRange(i)),
  validRange: ({ validRange }) => (i) => validRange(newRange(i)),
  outside: ({ outside }) => (i) => outside(at(versions, i), newRange(i), i % 2 ? '<' : '>'),
  gtr: ({ gtr }) => (i) => gtr(at(versions, i), newRange(i)),
  ltr: ({ ltr }) => (i) => ltr(at(versions, i), newRange(i)),
  intersects: ({ intersects }) => (i) => intersects(newRange(i), newRange(i + RANGES + 1)),
  subset: ({ subset }) => (i) => subset(newRange(i), newRange(i + RANGES + 1)),
};

/** Questions of a list. */
const OF_LISTS = {
  sort: ({ sort }) => () => sort([...long]),
  rsort: ({ rsort }) => () => rsort([...long]),
  maxSatisfying: ({ maxSatisfying }) => () => maxSatisfying(long, RANGE),
  minSatisfying: ({ minSatisfying }) => () => minSatisfying(long, RANGE),
  simplifyRange: ({ simplifyRange }) => () => simplifyRange([...long], RANGE),
};

const CLASSES = ['SemVer', 'Range', 'Comparator'];

/** The names of a library's functions and classes, and of those methods that compat has too. */
function namesOf(library) {
  const functions = Object.keys(library).filter((name) => typeof library[name] === 'function');
  return [...functions, ...CLASSES.flatMap((kind) => methodsOf(kind, library).map((name) => `${kind} ${name}`))];
}

function methodsOf(kind, library) {
  const names = Object.getOwnPropertyNames(library[kind].prototype);
  return names.filter((name) => name !== 'constructor' && name in compat[kind].prototype);
}

function labelOf(name) {
  return `\`${CLASSES.includes(name) ? `new ${name}` : name.replace(' ', '.')}\``;
}

function printName(name) {
  if (name in OF_VERSIONS) each(labelOf(name), CALLS, ...both(OF_VERSIONS[name]));
  else if (name in OF_RANGES) each(labelOf(name), RANGES, ...both(OF_RANGES[name]));
  else if (!(name in OF_LISTS)) fail(`${name}: no row asks it`);
}

head('What', 'µs');
printOwn();
head('`compat`', 'µs');
for (const name of namesOf(other ?? compat)) printName(name);
each('`satisfies`, always one range', CALLS, ...both(({ satisfies }) => (i) => satisfies(at(versions, i), RANGE)));
each('`satisfies`, invalid ranges', RANGES, ...both(({ satisfies }) => (i) => satisfies(at(versions, i), invalid(i))));
head(`${shownLength} versions`, 'ms');
printOwnLists();
for (const name of Object.keys(OF_LISTS)) once(labelOf(name), ...both(OF_LISTS[name]));
if (!isTable) {
  const many = 'x '.repeat(40_000);
  console.log('\nThe place of an error in 80 KB, and the parse of a valid range of that length, ms:');
  once('`x x .. !`', () => startIn(`${many}!`), () => startIn(`${many}x`), PARSES);
}
