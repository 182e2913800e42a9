// The package's own API, as ES modules and as CommonJS.

import assert from 'node:assert/strict';
import { createRequire } from 'node:module';
import { test } from 'node:test';
import { inspect } from 'node:util';
import { wasm } from '../out/package/calls.js';
import * as modules from '../out/package/index.js';

const common = createRequire(import.meta.url)('../out/package/index.cjs');

test('held versions whose numbers differ, and held releases, are compared without a call', (context) => {
  const [one, same, pre, higher] = ['1.2.3', '1.2.3+b', '1.2.3-a', '1.10.0-a'].map((text) => new modules.Version(text));
  const { mock } = context.mock.method(wasm, 'compare');
  const orders = [one.compare(higher), pre.compare(higher), modules.compare(higher, one), one.compare(same)];
  assert.deepEqual([orders, mock.callCount()], [[-1, -1, 1, 0], 0]);
  assert.deepEqual([one.compare(pre), mock.callCount()], [1, 1]);
});

test('where a text goes wrong is found once, when it is asked', (context) => {
  const { mock } = context.mock.method(wasm, 'errors');
  const error = attempt(() => modules.matches('^1.2.3.4', '1.0.0'));
  assert.deepEqual([error.message, mock.callCount()], ['Unexpected character.', 0]);
  assert.deepEqual([error.start, error.end, error.expected.length, mock.callCount()], [6, 8, 11, 1]);
});

for (const [kind, semver] of [['ES modules', modules], ['CommonJS', common]]) {
  const {
    PackageSyntaxError, Range, RangeSyntaxError, TagError, Version, VersionList, VersionSyntaxError,
  } = semver;

  test(`${kind}: a version matches a range`, () => {
    assert.equal(semver.matches('>=1.2 <2 || 3', '1.3.0'), true);
    assert.equal(semver.matches('>=1.2 <2 || 3', '2.0.0'), false);
    assert.equal(semver.matches('^1.2', new Version('v1.3.0')), true);
    assert.equal(semver.matches('^1.0.0', '1.2.0-rc.1'), false);
    assert.equal(semver.matches('^1.0.0', '1.2.0-rc.1', { preReleases: true }), true);
    assert.equal(semver.matches('1', '1.5.0', { grammar: 'strict' }), true);
    const long = `${'5 || '.repeat(100)}^1.0.0`; // the library doesn't hold it
    assert.equal(semver.matches(long, '1.2.0-rc.1'), false);
    assert.equal(semver.matches(long, '1.2.0-rc.1', { preReleases: true }), true);
  });

  test(`${kind}: lists`, () => {
    assert.deepEqual(semver.filter('^1.2', ['1.2.0', '2.0.0', 'v1.10.0']), ['1.2.0', 'v1.10.0']);
    assert.deepEqual(semver.filter('^1.2', []), []);
    assert.equal(semver.best('^1', ['1.2.0', '1.10.0', '2.0.0', '1.10.0+b']), '1.10.0');
    assert.equal(semver.lowest('^1', ['1.2.0', '1.10.0', '0.1.0']), '1.2.0');
    assert.equal(semver.best('^3', ['1.2.0']), undefined);
    assert.deepEqual(semver.sort(['1.10.0', '1.9.0', '1.9.0-rc.1', '1.9.0+b']), ['1.9.0-rc.1', '1.9.0', '1.9.0+b', '1.10.0']);
    const version = new Version('1.2.3');
    assert.equal(semver.best('*', [version]), version);
  });

  test(`${kind}: simplify`, () => {
    const [range, versions] = ['1.2.0 || 1.3.0', ['1.3.0+b', '1.1.0', '\n1.2.0\r\n']];
    assert.equal(semver.simplify(range, versions), '>=1.2.0');
    assert.equal(semver.simplify(range, versions.map((text) => new Version(text)), { grammar: 'normalized' }), '>=1.2.0');
    const long = `${range} ||`.repeat(20);
    assert.equal(semver.simplify(long, []), long);
    const pre = ['1.0.0-a', '1.2.0'];
    const answers = [false, true].map((preReleases) => semver.simplify('1.0.0-a || 1.2.0', pre, { preReleases }));
    assert.deepEqual(answers, ['1.0.0-a || 1.2.0', '*']);
    assert.equal(attempt(() => semver.simplify('latest', versions)).tag, 'latest');
    const ofRange = attempt(() => semver.simplify('^1..2', ['x']));
    assert.deepEqual([ofRange.name, ofRange.text, ofRange.index], ['RangeSyntaxError', '^1..2', undefined]);
    for (const [wrong, ...rest] of [['1.x', 'x'], ['\ud800']]) {
      const error = attempt(() => semver.simplify(range, ['1.2.0', wrong, ...rest]));
      assert.deepEqual([error.name, error.text, error.index], ['VersionSyntaxError', wrong, 1]);
    }
  });

  test(`${kind}: a line break in a version is whitespace`, () => {
    const texts = ['1.2.0\n', '\r\n1.3.0', '1.2.\n0', ''];
    const isValid = (text) => semver.diagnose('*') === undefined && attempt(() => new Version(text)) === undefined;
    assert.deepEqual(texts.map(isValid), [true, true, false, false]);
    assert.deepEqual(semver.filter('*', texts.slice(0, 2)), texts.slice(0, 2));
    for (const index of [2, 3]) assert.ok(attempt(() => semver.filter('*', [texts[index]])) instanceof VersionSyntaxError);
  });

  test(`${kind}: two ranges`, () => {
    assert.equal(semver.isSubset('^1.3', '^1.2'), true);
    assert.equal(semver.counterexample('^1.3', '^1.2'), undefined);
    assert.equal(semver.counterexample('>=1.3', '^1.2'), '2.0.0');
    assert.equal(semver.isEquivalent('1.x', '^1'), true);
    assert.equal(semver.isEquivalent('1.x', '^1.1'), false);
    assert.equal(semver.intersects('>1.0.0', '<1.0.1'), true);
    assert.equal(semver.common(['^1.2', '~1.4 || ^2', '>1.4.0']), '1.4.1');
    assert.equal(semver.common(['>1.0.0', '<1.0.1']), undefined);
    assert.equal(semver.common(['>1.0.0', '<1.0.1'], { preReleases: true }), '1.0.1-0');
    assert.equal(semver.common([]), undefined);
    for (const wrong of ['^1.2.3.4', '\ud800']) assert.equal(attempt(() => semver.common(['^1', wrong])).index, 1);
    assert.equal(attempt(() => semver.isSubset('^1', '^1.2.3.4')).index, undefined);
    assert.equal(semver.minVersion('>1.0.0'), '1.0.1');
    assert.equal(semver.minVersion('>1.0.0 <1.0.1'), undefined);
    assert.equal(semver.canonical('>=1.2 <2 || 3.x'), '^1.2.0 || 3');
    assert.equal(semver.compare('1.0.0-a', '1.0.0'), -1);
  });

  test(`${kind}: packages and references`, () => {
    assert.deepEqual(semver.parsePackage('@scope/name@1.x'), { scope: 'scope', name: 'name', range: '1.x', canonical: '1' });
    const preact = { scope: null, name: 'preact', range: '*', canonical: '*' };
    assert.deepEqual(semver.parseReference('npm:preact'), { kind: 'npm', package: preact, path: null, export: null });
    assert.ok(attempt(() => semver.parsePackage('@')) instanceof PackageSyntaxError);
    assert.ok(attempt(() => semver.parseReference('preact')) instanceof PackageSyntaxError);
    const { start, end } = attempt(() => semver.parsePackage('@é/name@^1..2'));
    assert.deepEqual([start, end], [11, 13]);
    const named = { scope: 'scope', name: 'name', version: '1.2.3' };
    assert.deepEqual(semver.parseNameWithVersion('@scope/name@1.2.3'), named);
    const reference = { kind: 'jsr', package: named, path: 'mod.ts', export: './mod.ts' };
    assert.deepEqual(semver.parseVersionReference('jsr:@scope/name@1.2.3/mod.ts'), reference);
    const dependency = { kind: 'npm', package: { scope: null, name: 'a', range: '1.x', canonical: '1' }, canonical: 'npm:a@1' };
    assert.deepEqual(semver.parseDependency('npm:a@1.x', { grammar: 'npm' }), dependency);
    assert.ok(attempt(() => semver.parseNameWithVersion('name@1')) instanceof PackageSyntaxError);
    assert.ok(attempt(() => semver.parseVersionReference('jsr:a')) instanceof PackageSyntaxError);
    assert.ok(attempt(() => semver.parseDependency('a@1')) instanceof PackageSyntaxError);
    assert.equal(semver.mayBeTag('latest'), true);
    assert.equal(semver.mayBeTag('a b'), false);
  });

  test(`${kind}: what a range means`, () => {
    const { alternatives, canonical } = semver.explain('>=1.2.3-beta <2 || foo bar || 1.2.3 || *');
    assert.equal(canonical, '^1.2.3-beta || 1.2.3 || *');
    const [first, second, third, any] = alternatives;
    assert.deepEqual(first.start, { version: '1.2.3-beta', inclusive: true });
    assert.deepEqual(first.end, { version: '2.0.0', inclusive: false });
    assert.deepEqual(first.preReleases, ['1.2.3']);
    assert.equal(first.lowest, '1.2.3-beta');
    assert.deepEqual(first.comparators, [
      { text: '>=1.2.3-beta', start: first.start, end: null },
      { text: '<2', start: { version: '0.0.0', inclusive: true }, end: first.end },
    ]);
    assert.equal(second.text, 'foo bar');
    assert.equal(second.error.message, 'Unexpected character.');
    assert.deepEqual(third.start, third.end);
    assert.equal(any.start ?? any.end, null);
    assert.deepEqual(semver.explain('latest'), { tag: 'latest' });
    assert.equal('tag' in semver.explain('1'), false);
    assert.deepEqual(semver.explain('1 ||').alternatives.map(({ text }) => text), ['1']);
    const { text, error } = semver.explain('é😀 ||1..2').alternatives[1];
    assert.deepEqual([text, error.start, error.end], ['1..2', 8, 10]);
  });

  test(`${kind}: invalid texts`, () => {
    const error = attempt(() => semver.matches('^1.2.3.4', '1.0.0'));
    assert.ok(error instanceof RangeSyntaxError && error instanceof SyntaxError);
    assert.equal(error.name, 'RangeSyntaxError');
    assert.equal(error.text, '^1.2.3.4');
    assert.equal(error.message, 'Unexpected character.');
    assert.equal(attempt(() => semver.isSubset('1', '^1.2.3.4')).text, '^1.2.3.4');
    assert.equal(attempt(() => semver.common(['1', '2', '^1.2.3.4'])).text, '^1.2.3.4');
    assert.deepEqual([error.start, error.end], [6, 8]);
    assert.deepEqual(error.expected, ['digit', 'x', 'v', 'letter', '-', '+', 'whitespace', ',', '&', '|', 'end']);
    assert.equal(semver.diagnose('é日!').start, 2);
    assert.equal(semver.diagnose('1 || 1..2 || 1..3', { grammar: 'normalized' }).start, 7);
    const { text, start, end } = attempt(() => semver.compare('1.0.0', '\u30001.2.é'));
    assert.deepEqual([text, start, end], ['\u30001.2.é', 5, 6]);
    const item = attempt(() => semver.sort(['1.0.0', '1.x']));
    assert.deepEqual([item.name, item.text, item.index], ['VersionSyntaxError', '1.x', 1]);
    assert.ok(attempt(() => new Version('1.0.0-\ud800')) instanceof VersionSyntaxError);
    assert.ok(attempt(() => semver.filter('1\ud800', ['1.0.0'])) instanceof RangeSyntaxError);
    assert.equal(attempt(() => semver.filter('1', ['1.0.0', '\ud800'])).index, 1);
    const filtered = attempt(() => semver.filter('1', ['1.0.0', 'y', '1.x']));
    assert.deepEqual([filtered.text, filtered.index], ['y', 1]);
    assert.equal(attempt(() => semver.matches('latest', '1.0.0')).tag, 'latest');
    assert.ok(attempt(() => semver.isSubset('1', 'latest')) instanceof TagError);
    assert.deepEqual([['1', 'latest'], ['next', '1']].map((two) => attempt(() => semver.isSubset(...two)).tag), ['latest', 'next']);
    const thrown = [() => semver.matches('1', 'x'), () => semver.parsePackage('@'), () => semver.matches('latest', '1.0.0')].map(attempt);
    assert.deepEqual(thrown.map(({ name }) => name), ['VersionSyntaxError', 'PackageSyntaxError', 'TagError']);
  });

  test(`${kind}: arguments of another type`, () => {
    const calls = [
      [() => semver.matches(1, '1.0.0'), 'range must be a string or a Range, not number'],
      [() => semver.matches('1', null), 'version must be a string or a Version, not null'],
      [() => semver.filter('1', '1.0.0'), 'versions must be an array, not string'],
      [() => semver.filter('1', ['1.0.0', 2]), 'versions[1] must be a string or a Version, not number'],
      [() => semver.matches('1', '1.0.0', 'npm'), 'options must be an object, not string'],
      [() => semver.matches('1', '1.0.0', { includePrerelease: true }), 'options has no "includePrerelease"'],
      [() => semver.matches('1', '1.0.0', { grammar: 'toString' }), 'options.grammar must be "npm", "normalized" or "strict"'],
      [() => semver.matches('1', '1.0.0', { grammar: '' }), 'options.grammar must be "npm", "normalized" or "strict"'],
      [() => semver.matches('1', '1.0.0', null), 'options must be an object, not null'],
      [() => semver.matches('1', '1.0.0', { preReleases: 1 }), 'options.preReleases must be a boolean, not number'],
      [() => semver.common('1'), 'ranges must be an array, not string'],
      [() => semver.common(['1', 2]), 'ranges[1] must be a string or a Range, not number'],
      [() => semver.common(['1', , '2']), 'ranges[1] must be a string or a Range, not undefined'],
      [() => semver.filter('1', ['1.0.0', , '2.0.0']), 'versions[1] must be a string or a Version, not undefined'],
      [() => semver.sort([, '1.0.0']), 'versions[0] must be a string or a Version, not undefined'],
      [() => new VersionList([, '1.0.0']), 'versions[0] must be a string or a Version, not undefined'],
      [() => semver.simplify('1', '1.0.0'), 'versions must be an array, not string'],
      [() => semver.simplify('1', [], { skipInvalid: true }), 'options has no "skipInvalid"'],
      [() => semver.sort([], { preReleases: true }), 'options has no "preReleases"'],
      [() => semver.matches('1', '1.0.0', { skipInvalid: true }), 'options has no "skipInvalid"'],
      [() => semver.filter('1', [], { skipInvalid: 1 }), 'options.skipInvalid must be a boolean, not number'],
      [() => new Version({}), 'version must be a string or a Version, not object'],
      [() => semver.isSubset('1', {}), 'other must be a string or a Range, not object'],
      [() => new Range([]), 'range must be a string or a Range, not an array'],
      [() => new Range('1').intersects(1), 'other must be a string or a Range, not number'],
      [() => semver.parsePackage(undefined), 'specifier must be a string, not undefined'],
    ];
    for (const [call, message] of calls) {
      const error = attempt(call);
      assert.deepEqual([error?.name, error?.message], ['TypeError', message]);
    }
  });

  test(`${kind}: values`, () => {
    const range = new Range('>=1.2 <2');
    assert.equal(range.canonical, '^1.2.0');
    assert.equal(range.tag, undefined);
    assert.equal(new Range('latest').tag, 'latest');
    assert.equal(new Range(' latest ').tag, 'latest');
    assert.deepEqual([false, true].map((preReleases) => new Range('^1', { preReleases }).matches('1.2.0-rc.1')), [false, true]);
    assert.equal(range.matches('1.3.0'), true);
    assert.equal(range.equals(new Range('^1.2')), true);
    assert.equal(range.equals(range) && range.intersects(range), true);
    const [none] = ['>2 <1'].map((text) => new Range(text));
    assert.equal(none.intersects(none), false);
    assert.equal(JSON.stringify({ range }), '{"range":">=1.2 <2"}');
    range.free();
    range.free();
    assert.equal(attempt(() => range.matches('1.3.0')).message, 'the value was freed');
    const version = new Version('v1.2.3-beta.1+b.2');
    assert.deepEqual([version.major, version.minor, version.patch], [1, 2, 3]);
    assert.deepEqual([version.preRelease, version.build], [['beta', '1'], ['b', '2']]);
    version.preRelease.reverse();
    version.build.pop();
    assert.deepEqual([version.preRelease, version.build], [['beta', '1'], ['b', '2']]);
    assert.equal(`${version}`, '1.2.3-beta.1+b.2');
    assert.ok(attempt(() => new Version('9007199254740993.0.0').major) instanceof RangeError);
  });

  test(`${kind}: held versions have the order of their texts`, () => {
    const texts = [
      '1.2.3', '1.2.3+b', '1.2.3-a', '1.2.3-b', '1.2.3-a+b-c', '1.2.4', '1.3.0-a', '2.0.0', '1.2.9007199254740991', '1.2.9007199254740992',
      '1.2.9007199254740993', '9007199254740992.0.0', '9007199254740993.0.0', '9007199254740993.0.0-a', '18446744073709551615.2.3',
    ];
    for (const one of texts) {
      for (const other of texts) {
        const [held, right] = [new Version(one), semver.compare(one, other)];
        assert.equal(held.compare(new Version(other)), right, `${one} and ${other}`);
        assert.equal(semver.compare(held, new Version(other)), right, `${one} and ${other}`);
        assert.equal(held.compare(other), right, `${one} and the text ${other}`);
      }
    }
  });

  test(`${kind}: a list of versions`, () => {
    const list = new VersionList(['1.2.0', 'x', '2.0.0', '1.10.0\n', '1.\n', '\ud800', '']);
    assert.equal(list.length, 7);
    assert.deepEqual(list.filter(new Range('^1')), ['1.2.0', '1.10.0\n']);
    assert.deepEqual(list.filter(new Range('>=2')), ['2.0.0']);
    assert.deepEqual([list.best(new Range('^1')), list.lowest(new Range('^1')), list.best(new Range('3'))], ['1.10.0\n', '1.2.0', undefined]);
    assert.deepEqual(list.sort(), ['1.2.0', '1.10.0\n', '2.0.0']);
    assert.deepEqual(new VersionList([]).sort(), []);
    assert.equal(attempt(() => list.lowest(new Range('latest'))).tag, 'latest');
    assert.deepEqual(new VersionList([]).filter(new Range('*')), []);
    assert.deepEqual(new VersionList(['1.2.0-a']).filter(new Range('1', { preReleases: true })), ['1.2.0-a']);
    assert.equal(attempt(() => list.filter(1)).message, 'range must be a string or a Range, not number');
    assert.deepEqual([list.filter('^1'), list.best('^1 || 2'), list.lowest('1')], [['1.2.0', '1.10.0\n'], '2.0.0', '1.2.0']);
    assert.equal(attempt(() => list.best('^1..2')).name, 'RangeSyntaxError');
    assert.deepEqual(new VersionList(['1.2.0-a']).filter('1', { preReleases: true }), ['1.2.0-a']);
    assert.equal(attempt(() => list.filter(new Range('latest'))).tag, 'latest');
    list.free();
    assert.equal(attempt(() => list.filter(new Range('1'))).message, 'the value was freed');
    const versions = ['1.2.0', '2.0.0'];
    const kept = new VersionList(versions);
    versions.reverse();
    assert.deepEqual([kept.filter(new Range('1')), kept.sort()], [['1.2.0'], ['1.2.0', '2.0.0']]);
  });

  for (const [copy, others] of [['this', semver], ['another', semver === modules ? common : modules]]) {
    test(`${kind}: a Range or a Version of ${copy} copy in place of a text`, () => {
      const range = (text, options) => new others.Range(text, options);
      const versions = ['1.2.0', '1.3.0-a', '1.10.0', '2.0.0'].map((text) => new others.Version(text));
      const [two, pre, three, four] = versions;
      assert.deepEqual([semver.matches(range('^1.2'), three), semver.matches(range('^1.2'), pre)], [true, false]);
      assert.equal(semver.matches(range('^1.2', { preReleases: true }), pre), true);
      assert.equal(semver.matches(range('^1.2', { preReleases: true }), pre, { preReleases: false }), false);
      assert.equal(semver.matches(range('^1.2'), pre, { preReleases: true }), true);
      assert.deepEqual(semver.filter(range('^1'), versions), [two, three]);
      assert.deepEqual([semver.best(range('^1'), versions), semver.lowest(range('^1'), versions)], [three, two]);
      assert.equal(semver.simplify(range('>=1.2.0 <=1.10.0', { preReleases: true }), versions), '<=1.10.0');
      assert.deepEqual(semver.sort([four, pre, two]), [two, pre, four]);
      assert.deepEqual([semver.compare(two, three), new Version('1.3.0').compare(three), `${new Version(two)}`], [-1, -1, '1.2.0']);
      assert.equal(semver.increment(two, 'minor'), '1.3.0');
      assert.equal(semver.isSubset(range('^1.3'), '^1.2') && semver.isSubset('^1.3', range('^1.2')), true);
      assert.deepEqual([semver.counterexample(range('1'), '2'), semver.intersects('1', range('1.2'))], ['1.0.0', true]);
      assert.equal(semver.isEquivalent(range('1.x'), range('^1')), true);
      assert.deepEqual([semver.common([range('1'), '^1.2']), semver.minVersion(range('>1.0.0'))], ['1.2.0', '1.0.1']);
      assert.deepEqual([semver.canonical(range('>=1.2 <2')), semver.explain(range('1.x')).canonical], ['^1.2.0', '1']);
      assert.equal(semver.diagnose(range('1')), undefined);
      assert.deepEqual([`${new Range(range('^1'))}`, new Range(range('1', { preReleases: true })).matches('1.2.0-a')], ['^1', true]);
      assert.equal(new Range('^1').intersects(range('1.2')) && new Range('^1').equals(range('1.x')), true);
      assert.deepEqual(new VersionList(versions).filter(range('>1.2')), [three, four]);
      assert.deepEqual(new VersionList(versions).filter(range('1'), { preReleases: true }), [two, pre, three]);
      const strict = range('1', { grammar: 'strict' });
      assert.equal(semver.isSubset(strict, '1'), true);
      assert.equal(attempt(() => semver.isSubset('>=1 <2', strict)).name, 'RangeSyntaxError');
      const { name, message } = attempt(() => semver.isSubset(range('1'), strict));
      assert.deepEqual([name, message], ['TypeError', 'other is a Range of the grammar "strict", not "npm"']);
    });
  }

  test(`${kind}: intersects and equals of a text`, () => {
    const range = new Range('^1.2');
    assert.deepEqual([range.intersects('1.4'), range.intersects('2'), range.equals('>=1.2 <2'), range.equals('^1.3')], [true, false, true, false]);
    assert.ok(attempt(() => range.intersects('^1..2')) instanceof RangeSyntaxError);
    assert.ok(attempt(() => new Range('1', { grammar: 'strict' }).equals('1 || 2')) instanceof RangeSyntaxError);
  });

  test(`${kind}: invalid versions are left out`, () => {
    const [versions, skipInvalid] = [['2.0.0', 'x', '1.2.0-a', '1.2.0', '', '\ud800', '1.x'], { skipInvalid: true }];
    assert.deepEqual(semver.filter('1 || 2', versions, skipInvalid), ['2.0.0', '1.2.0']);
    assert.deepEqual(semver.filter('1', versions, { preReleases: true, ...skipInvalid }), ['1.2.0-a', '1.2.0']);
    assert.deepEqual([semver.best('*', versions, skipInvalid), semver.lowest('*', versions, skipInvalid)], ['2.0.0', '1.2.0']);
    assert.equal(semver.best('3', versions, skipInvalid), undefined);
    assert.deepEqual(semver.sort(versions, skipInvalid), ['1.2.0-a', '1.2.0', '2.0.0']);
    for (const call of ['filter', 'best', 'lowest']) {
      assert.equal(attempt(() => semver[call]('1', ['1.0.0', 'x'], { skipInvalid: false })).index, 1, call);
      assert.ok(attempt(() => semver[call]('^1..2', versions, skipInvalid)) instanceof RangeSyntaxError, call);
    }
    assert.equal(attempt(() => semver.sort(['1.0.0', 'x'], {})).index, 1);
  });

  test(`${kind}: Node shows a value`, () => {
    assert.equal(inspect([new Version('v1.2.3-a+b'), new Range('^1.2')]), '[ Version <1.2.3-a+b>, Range <^1.2> ]');
    const shown = inspect(attempt(() => new Range('^1.2.3.4')));
    assert.match(shown, /^RangeSyntaxError: Unexpected character\.\n +at /);
    assert.match(shown, /\{\s+text: '\^1\.2\.3\.4',\s+start: 6,\s+end: 8,\s+expected: \[.*'end'\s+\]\s+\}$/s);
  });

  test(`${kind}: using frees a value`, { skip: !Symbol.dispose && 'the host has no using' }, () => {
    for (const value of [new Range('1'), new VersionList(['1.0.0'])]) {
      value[Symbol.dispose]();
      assert.throws(() => (value.tag, value.filter(new Range('1'))), { message: 'the value was freed' });
    }
  });

  test(`${kind}: long texts`, () => {
    const long = `${'1.2.3 || '.repeat(20_000)}^7`;
    assert.equal(semver.matches(long, '7.1.0'), true);
    assert.equal(semver.canonical('é'.repeat(500), { grammar: 'npm' }), 'é'.repeat(500));
    assert.equal(semver.compare(`1.0.0-${'a.'.repeat(50_000)}a`, `1.0.0-${'a.'.repeat(50_000)}b`), -1);
  });
}

function attempt(call) {
  try {
    call();
    return undefined;
  } catch (error) {
    return error;
  }
}
