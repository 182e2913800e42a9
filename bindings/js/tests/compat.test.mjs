// deno-semver/compat beside each node-semver that is installed: fields and methods of values, options, and errors. compare.mjs compares the
// answers of random questions, and suite.mjs runs node-semver's own tests.

import assert from 'node:assert/strict';
import { existsSync, readdirSync } from 'node:fs';
import { createRequire } from 'node:module';
import { test } from 'node:test';
import compat from '../out/package/compat.js';

const require = createRequire(import.meta.url);
const common = require('../out/package/compat.cjs');
const { Range, SemVer } = compat;
const INTERNAL = ['re', 'src', 'tokens'];
const SUB_PATHS = ['classes', 'functions', 'ranges'].flatMap((kind) => readdirSync(new URL(`../out/package/compat/${kind}`, import.meta.url))
  .filter((name) => name.endsWith('.cjs')).map((name) => `${kind}/${name.slice(0, -'.cjs'.length)}`));
const installed = (process.env.NODE_SEMVERS ?? '').split(':').filter((folder) => folder && existsSync(folder));

test('coerce finds the version that a string contains', () => {
  const shown = (version, options) => compat.coerce(version, options)?.version ?? null;
  assert.equal(shown('v2'), '2.0.0');
  assert.equal(shown('node-18.20.4-linux'), '18.20.4');
  assert.equal(shown('1.2.3.4'), '1.2.3');
  assert.equal(shown('1.2.3.4', { rtl: true }), '2.3.4');
  assert.equal(shown('1.2.3-rc.1+b'), '1.2.3');
  assert.equal(shown('1.2.3-rc.1+b', { includePrerelease: true }), '1.2.3-rc.1');
  assert.equal(shown('a 1-b 2-c', { includePrerelease: true, rtl: true }), '2.0.0-c');
  assert.equal(shown('12345678901234567.1'), '1.0.0');
  assert.equal(shown(4.5), '4.5.0');
  const held = new SemVer('1.2.3');
  assert.equal(compat.coerce(held), held);
  for (const nothing of ['', 'latest', '01.02', null, undefined, {}, [1]]) assert.equal(compat.coerce(nothing), null);
});

test('invalid texts are null or false where they are in node-semver, and else throw TypeError', () => {
  for (const text of ['x!', 'latest', '1.2', null, undefined, 1, {}, []]) {
    assert.equal(compat.valid(text), null);
    assert.equal(compat.parse(text), null);
    if (text !== '1.2') assert.equal(compat.validRange(text), null);
    if (text !== '1.2') assert.equal(compat.satisfies('1.2.3', text), false);
    assert.throws(() => compat.compare(text, '1.0.0'), TypeError);
    assert.throws(() => new SemVer(text), TypeError);
  }
  for (const range of ['x!', 'latest', null, 1]) {
    assert.equal(compat.maxSatisfying(['1.0.0'], range), null);
    assert.throws(() => compat.minVersion(range), TypeError);
    assert.throws(() => compat.subset('1', range), TypeError);
    assert.throws(() => compat.toComparators(range), TypeError);
    assert.throws(() => new Range(range), TypeError);
  }
  assert.throws(() => compat.maxSatisfying('1.0.0', '1'), { name: 'TypeError', message: 'versions must be an array, not string' });
  assert.throws(() => compat.sort('1.0.0'), { name: 'TypeError', message: 'list must be an array, not string' });
});

/** The error of a call, as a text. */
function errorOf(call) {
  try {
    call();
    return undefined;
  } catch (error) {
    return `${error.name}: ${error.message}`;
  }
}

// node-semver's answers, in each release that is installed and here.
const nameOf = (folder) => `in node-semver ${require(`${folder}/package.json`).version}`;
const libraries = [['here', compat], ...installed.map((folder) => [nameOf(folder), require(folder)])];
for (const [where, library] of libraries) {
  const { Comparator, Range, SemVer } = library;
  const isOld = where.includes('7.3');

  test(`the fields and methods of a version, ${where}`, () => {
    assert.equal(new SemVer(' 1.2.3 ').raw, ' 1.2.3 ');
    assert.deepEqual(new SemVer('1.0.0-9007199254740990.9007199254740991').prerelease, [9007199254740990, '9007199254740991']);
    const loose = [{ loose: true }, { loose: false }, true, undefined].map((options) => new SemVer('1.2.3', options).loose);
    assert.deepEqual(loose, [true, false, true, false]);
    assert.equal(new SemVer('1.2.3', { includePrerelease: true }).includePrerelease, true);
    const pairs = [['1.0.0', '2.0.0-a'], ['2.0.0-a', '1.0.0'], ['1.0.0-a', '2.0.0-b'], ['1.0.0', '2.0.0'], ['1.0.0-a', '1.0.0-a.0']];
    assert.deepEqual(pairs.map(([one, other]) => new SemVer(one).comparePre(other)), [1, -1, -1, 0, -1]);
    assert.deepEqual(pairs.map(([one, other]) => new SemVer(one).compareMain(other)), [-1, 1, -1, -1, 0]);
    const version = new SemVer('1.2.3-a');
    version.minor++;
    version.prerelease = [];
    assert.deepEqual([version.version, version.format(), version.version], ['1.2.3-a', '1.3.3', '1.3.3']);
    const other = new SemVer('1.2.3', true);
    assert.deepEqual([new SemVer(other, true) === other, new SemVer(other) === other], [true, false]);
  });

  test(`the next version, ${where}`, () => {
    if (!isOld) assert.equal(new SemVer('1.2.3-rc.1+b').inc('patch').raw, '1.2.3+b');
    assert.deepEqual(['pre', 'prerelease'].map((type) => library.inc('1.2.3-rc.1', type)), ['1.2.3-rc.2', '1.2.3-rc.2']);
    assert.deepEqual([library.inc('1.2.3', 'pre'), library.inc('1.2.3', 'pre', 'rc')], ['1.2.3-0', '1.2.3-rc.0']);
    assert.equal(errorOf(() => new SemVer('1.2.3').inc('other')), 'Error: invalid increment argument: other');
    if (!isOld) assert.equal(errorOf(() => new SemVer('1.2.3').inc('pre', '', false)), 'Error: invalid increment argument: identifier is empty');
  });

  test(`versions are cleaned and compared by an operator, ${where}`, () => {
    assert.deepEqual(['=v1.2.3', 'vvv1.2.3', '  ==vv1.2.3\n'].map((text) => library.clean(text)), ['1.2.3', '1.2.3', '1.2.3']);
    assert.deepEqual(['===', '!==', '==', '!='].map((operator) => library.cmp('1.2.3', operator, 'v1.2.3')), [false, true, true, false]);
    for (const operator of ['toString', '=>', 'a']) {
      assert.throws(() => library.cmp('1.2.3', operator, '1.2.3'), { name: 'TypeError', message: `Invalid operator: ${operator}` });
    }
  });

  test(`loose and strict texts, ${where}`, () => {
    const [strict, loose] = [undefined, true].map((options) =>
      ['v1.2.3', '=1.2.3', '1.2.3beta', '01.2.3', '1.2.3-01', '1.2.3-a.', '1.2'].map((text) => library.valid(text, options)));
    assert.deepEqual(strict, ['1.2.3', null, null, null, null, null, null]);
    assert.deepEqual(loose, ['1.2.3', '1.2.3', '1.2.3-beta', '1.2.3', '1.2.3-1', null, null]);
    assert.deepEqual([library.major('v=34.2.3', true), library.compareLoose('=1.2.3', '01.02.03')], [34, 0]);
    assert.deepEqual([undefined, true].map((options) => library.validRange('>01.2 || foo', options)), [null, '>=1.3.0']);
    assert.deepEqual(['v= 1', '> = 1', '>= v1'].map((range) => library.validRange(range)), [null, null, '>=1.0.0']);
    assert.deepEqual(['/ * a', '/ *', '* 1 *'].map((range) => library.validRange(range, true)), [null, '*', '>=1.0.0 <2.0.0-0']);
    assert.equal(library.validRange('"== 1', true), '>=1.0.0 <2.0.0-0');
  });

  test(`versions that are too long or too large, ${where}`, () => {
    const errors = ['9007199254740992.0.0', '0.9007199254740992.0', '0.0.9007199254740992', `1.2.3-${'a'.repeat(251)}`, '1.2.3-'];
    assert.deepEqual(errors.map((text) => errorOf(() => new SemVer(text))), [
      'TypeError: Invalid major version', 'TypeError: Invalid minor version', 'TypeError: Invalid patch version',
      'TypeError: version is longer than 256 characters', 'TypeError: Invalid Version: 1.2.3-',
    ]);
    if (!isOld) assert.equal(errorOf(() => new SemVer(1)), 'TypeError: Invalid version. Must be a string. Got type "number".');
    assert.equal(new SemVer('9007199254740991.0.0').major, 9007199254740991);
  });

  test(`the comparators of a range, ${where}`, () => {
    const { set, range, raw } = new Range('^1.2 || ~0.3.1-rc <4 || 5.x');
    assert.deepEqual(set.map((comparators) => comparators.map(({ operator, semver }) => [operator, semver.version])), [
      [['>=', '1.2.0'], ['<', '2.0.0-0']], [['>=', '0.3.1-rc'], ['<', '0.4.0-0'], ['<', '4.0.0-0']], [['>=', '5.0.0'], ['<', '6.0.0-0']],
    ]);
    assert.ok(set.flat().every((it) => it instanceof Comparator && it.semver instanceof SemVer));
    assert.deepEqual([range, raw], ['>=1.2.0 <2.0.0-0||>=0.3.1-rc <0.4.0-0 <4.0.0-0||>=5.0.0 <6.0.0-0', '^1.2 || ~0.3.1-rc <4 || 5.x']);
    assert.deepEqual([String(new Range('*')), new Range('*').set[0][0].semver], ['', Comparator.ANY]);
    assert.deepEqual(library.toComparators('1 - 2 || >3 <*'), [['>=1.0.0', '<3.0.0-0']]);
    const includePrerelease = { includePrerelease: true };
    assert.deepEqual(
      ['^1.2', '<1.0.0', '<1', '1 - 2.3.4', '>=0.0.0-0', '^0.1.2', '>1.2'].map((text) => new Range(text, includePrerelease).range),
      ['>=1.2.0-0 <2.0.0-0', '<1.0.0', '<1.0.0-0', '>=1.0.0-0 <2.3.5-0', '', '>=0.1.2-0 <0.2.0-0', '>=1.3.0-0'],
    );
  });

  test(`ranges of ranges and of comparators, ${where}`, () => {
    const range = new Range('>=1.2 <2', true);
    assert.deepEqual([new Range(range, true) === range, new Range(range) === range, new Range(range).raw], [true, false, '>=1.2 <2']);
    assert.equal(new Range('1', { loose: true }).loose, true);
    const comparator = new Comparator('>=1.2.3');
    const made = new Range(comparator);
    assert.deepEqual([made.raw, made.range, made.set[0][0]], ['>=1.2.3', '>=1.2.3', comparator]);
    assert.equal(library.satisfies('1.2.4', comparator), true);
    assert.equal(errorOf(() => made.intersects('1')), 'TypeError: a Range is required');
    assert.equal(new Range('1').set[0], new Range('1').set[0]);
    range.set = [[comparator]];
    assert.deepEqual([range.format(), String(range), range.test('3.0.0')], ['>=1.2.3', '>=1.2.3', true]);
  });

  test(`comparators, ${where}`, () => {
    const comparator = new Comparator('>= v1.2.3-a');
    const { operator, semver, value, loose } = comparator;
    assert.deepEqual([operator, semver.version, value, loose, String(comparator)], ['>=', '1.2.3-a', '>=1.2.3-a', false, '>=1.2.3-a']);
    assert.deepEqual([new Comparator('=1.2.3').operator, new Comparator('').semver, new Comparator('').value], ['', Comparator.ANY, '']);
    assert.deepEqual(['1.2.3-b', '1.2.2', 'x', Comparator.ANY].map((version) => comparator.test(version)), [true, false, false, true]);
    assert.deepEqual(['>1.2.3', '<1.2.3', '<=1.2.3', '1.2.3'].map((text) => new Comparator(text).test('1.2.3')), [false, false, true, true]);
    assert.equal(new Comparator('').test('1.2.3'), true);
    assert.equal(new Comparator('>=1.2.3', true).loose, true);
    if (!isOld) assert.equal(new Comparator(' >  1.2.3 ').value, '>1.2.3');
    assert.deepEqual([new Comparator(comparator) === comparator, new Comparator(comparator, true) === comparator], [true, false]);
    assert.equal(errorOf(() => new Comparator('^1.2.3')), 'TypeError: Invalid comparator: ^1.2.3');
    assert.equal(errorOf(() => new Comparator('=01.2.3')), 'TypeError: Invalid comparator: =01.2.3');
    const meets = (one, other) => new Comparator(one).intersects(new Comparator(other));
    const pairs = [['>1.3.0', '<1.2.0'], ['>=1.3.0', '<=1.3.0'], ['>1.3.0', '1.3.0'], ['', '<1.2.0'], ['>1.0.0', '>2.0.0']];
    assert.deepEqual(pairs.map(([one, other]) => meets(one, other)), [false, true, false, true, true]);
    assert.equal(errorOf(() => comparator.intersects('1')), 'TypeError: a Comparator is required');
  });

  test(`includePrerelease, ${where}`, () => {
    const includePrerelease = { includePrerelease: true };
    const both = (call) => [call(undefined), call(includePrerelease)];
    assert.deepEqual(both((options) => library.satisfies('1.3.0-rc.1', '^1.2', options)), [false, true]);
    assert.deepEqual(both((options) => library.satisfies('2.0.0-rc.1', '^1.2', options)), [false, false]);
    assert.deepEqual(both((options) => library.satisfies('0.0.0-a', '<1', options)), [false, true]);
    assert.deepEqual(both((options) => library.maxSatisfying(['1.2.0', '1.3.0-a'], '1', options)), ['1.2.0', '1.3.0-a']);
    assert.deepEqual(both((options) => library.minSatisfying(['1.2.0', '1.0.0-a'], '1', options)), ['1.2.0', '1.0.0-a']);
    assert.deepEqual(both((options) => library.validRange('^1.2', options)), ['>=1.2.0 <2.0.0-0', '>=1.2.0-0 <2.0.0-0']);
    assert.deepEqual(both((options) => library.minVersion('^1.2', options).version), ['1.2.0', '1.2.0-0']);
    assert.deepEqual(both((options) => library.subset('^1.2.3-a', '1.x', options)), [false, true]);
    if (!isOld) assert.deepEqual(both((options) => library.intersects('1.2.3-a', '1.x', options)), [false, true]);
    assert.deepEqual(both((options) => library.gtr('2.0.0-a', '1.x', options)), [true, true]);
    const versions = ['1.0.0', '1.1.0-a', '1.2.0', '2.0.0'];
    assert.deepEqual(both((options) => library.simplifyRange(versions, '>=1.0.0 <2.0.0-0', options)), ['1.0.0 || 1.2.0', '<=1.2.0']);
  });

  test(`pre-releases of 0.0.0, ${where}`, () => {
    const asked = [['0.0.0-b', '<=0.0.0-beta'], ['0.0.0-c', '<0.0.0-beta'], ['0.0.0-b', '>0.0.0-a <1'], ['0.0.0-0', '<1'], ['0.0.0-0', '*']];
    assert.deepEqual(asked.map(([version, range]) => library.satisfies(version, range)), [true, false, true, false, false]);
    assert.deepEqual(['<0.0.0-b', '0.0.0-x'].map((range) => library.minVersion(range).version), ['0.0.0-0', '0.0.0-x']);
    assert.deepEqual([library.subset('0.0.0-a', '<0.0.0-b'), library.subset('<0.0.0-b', '0.0.0-a')], [true, false]);
  });

  test(`versions outside a range, ${where}`, () => {
    const outside = (...asked) => library.outside(...asked);
    assert.deepEqual(['0.9.0', '1.5.0', '2.0.0', '1.5.0-a'].map((version) => [outside(version, '1.x', '<'), outside(version, '1.x', '>')]), [
      [true, false], [false, false], [false, true], [true, true],
    ]);
    const asked = [['4.0.0', '1 || >3'], ['3.0.0', '1 || 2'], ['1.5.0', '1.2 || 1.7'], ['0.9.0', '>1'], ['0.0.0', '<1 || 2'], ['1.0.0', '*']];
    assert.deepEqual(asked.map((it) => library.gtr(...it)), [false, true, false, false, false, false]);
    assert.deepEqual(asked.map((it) => library.ltr(...it)), [false, false, false, true, false, false]);
    assert.equal(errorOf(() => outside('1.0.0', '1', '=')), 'TypeError: Must provide a hilo val of "<" or ">"');
  });

  test(`a simpler range, ${where}`, () => {
    const versions = ['1.0.0', '1.0.1', '1.1.0', '2.0.0', '2.1.0', '3.0.0'];
    const simpler = (range) => library.simplifyRange(versions, range);
    assert.equal(simpler('1.0.0 || 1.0.1 || 1.1.0'), '<=1.1.0');
    assert.equal(simpler('1.0.0 || 1.0.1 || 1.1.0 || 2 || 3'), '*');
    assert.equal(simpler('1.0.1 || 1.1.0 || 2.0.0 || 2.1.0'), '1.0.1 - 2.1.0');
    assert.equal(simpler('>=2.0.0 <2.1.0 || 3.0.0'), '2.0.0 || >=3.0.0');
    assert.equal(simpler('1.x'), '1.x');
    const range = new Range('1.x');
    assert.equal(simpler(range), range);
    assert.equal(library.simplifyRange(['1.0.0'], '>=5.0.0'), '');
  });

  test(`lists keep their items, ${where}`, () => {
    const items = ['1.2.0', 'v1.10.0', '1.9.0'].map((text) => new SemVer(text));
    assert.equal(library.maxSatisfying(items, '1'), items[1]);
    assert.equal(library.minSatisfying(items, '1'), items[0]);
    assert.equal(library.maxSatisfying([null, '', '1.0.0', 'x', undefined], '1'), '1.0.0');
    const list = [...items];
    assert.equal(library.rsort(list), list);
    assert.deepEqual(list, [items[1], items[2], items[0]]);
    assert.deepEqual(library.sort(['1.0.0+b', '1.0.0+a.1', '1.0.0+a', '1.0.0']), ['1.0.0', '1.0.0+a', '1.0.0+a.1', '1.0.0+b']);
    assert.ok(library.minVersion('^1.2') instanceof SemVer);
  });
}

test('the lowest version may be a pre-release of 0.0.0, and two ranges may have one in common', () => {
  assert.deepEqual(['>0.0.0-a <1', '>=0.0.0-0'].map((range) => compat.minVersion(range).version), ['0.0.0-a.0', '0.0.0-0']);
  assert.deepEqual([compat.intersects('<0.0.0-b', '0.0.0-a'), compat.intersects('<0.0.0-b', '0.0.0-c')], [true, false]);
});

for (const folder of installed) {
  test(`the names of node-semver ${require(`${folder}/package.json`).version}`, () => {
    const semver = require(folder);
    const missing = Object.keys(semver).filter((name) => !(name in compat) && !INTERNAL.includes(name));
    assert.deepEqual(missing, []);
    for (const [name, text] of [['SemVer', '1.2.3-a.1+b.2'], ['Comparator', '>1.2.3'], ['Range', '1']]) {
      const [ours, theirs] = [compat, semver].map((library) => Object.keys(new library[name](text)).sort());
      assert.deepEqual(ours, theirs);
    }
  });

  test(`the sub-paths of node-semver ${require(`${folder}/package.json`).version}`, () => {
    const theirs = ['classes', 'functions', 'ranges'].flatMap((kind) => readdirSync(`${folder}/${kind}`).map((name) => `${kind}/${name}`));
    assert.deepEqual(SUB_PATHS.map((path) => `${path}.js`).sort(), theirs.sort());
    const index = require(folder);
    const nameIn = (library, value) => Object.keys(library).find((name) => library[name] === value);
    for (const path of SUB_PATHS.filter((it) => it !== 'classes/index')) {
      assert.equal(nameIn(common, require(`../out/package/compat/${path}.cjs`)), nameIn(index, require(`${folder}/${path}`)), path);
    }
  });
}
