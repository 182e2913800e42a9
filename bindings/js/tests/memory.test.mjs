// Memory: that short calls hold none, that values are freed, and what happens when it runs out.

import assert from 'node:assert/strict';
import { test } from 'node:test';
import { setTimeout } from 'node:timers/promises';
import compat from '../out/package/compat.js';
import * as semver from '../out/package/index.js';
import { view, wasm, write } from '../out/package/calls.js';

const pages = () => view().length;

/** Calls a million times, and returns by how many blocks and bytes the library's heap grows after the first calls. */
function growth(call) {
  for (let i = 0; i < 2000; i++) call(i);
  const before = [wasm.heap_blocks(), pages()];
  for (let i = 0; i < 1_000_000; i++) call(i);
  return [wasm.heap_blocks() - before[0], pages() - before[1]];
}

// This one comes first: a later one would find room for its texts.
test('a text of three bytes a character has room', () => {
  for (let length = 1000; length < 1_000_000; length *= 2) {
    semver.mayBeTag('a'.repeat(length));
    const ranges = Array.from({ length: 1000 }, (_, i) => new semver.Range(`^1.${i + 1}.0`));
    assert.equal(semver.canonical('日'.repeat(length)), '日'.repeat(length));
    assert.ok(ranges.every((range) => range.canonical === range.text), `${length} characters`);
    for (const range of ranges) range.free();
  }
});

test('a million short calls in one loop hold no memory', () => {
  assert.deepEqual(growth((i) => semver.matches('^1.2', `1.${i % 100}.0`)), [0, 0]);
  assert.deepEqual(growth((i) => compat.satisfies('1.2.3', `^1.${i % 3000}.0`)), [0, 0]);
  assert.deepEqual(growth((i) => new compat.Range(`^1.${i % 3000}.0`)), [0, 0]);
  assert.deepEqual(growth((i) => new semver.Version(`1.${i % 100}.0`)), [0, 0]);
});

test('a long range is not held, and a larger text leaves the place of the one before', () => {
  const before = wasm.heap_blocks();
  for (let i = 0; i < 100; i++) assert.equal(semver.matches(`${'1 || '.repeat(60)}${i}.1`, '1.0.0'), true);
  for (let length = 1000; length < 1_000_000; length *= 2) assert.equal(semver.canonical('é'.repeat(length)).length, length);
  assert.ok(wasm.heap_blocks() - before <= 2, `${wasm.heap_blocks() - before} blocks`);
});

test('freed values leave no block', () => {
  assert.deepEqual(growth((i) => new semver.VersionList([`1.${i % 100}.0`, 'x']).free()), [0, 0]);
  assert.deepEqual(growth((i) => new semver.Range(`^1.${i % 100}.0`).free()), [0, 0]);
});

test('ranges that are collected leave no block', { skip: typeof gc === 'undefined' && 'no --expose-gc' }, async () => {
  const before = wasm.heap_blocks();
  for (let i = 0; i < 10_000; i++) new semver.Range(`^1.${i}.0`);
  for (let i = 0; i < 20 && wasm.heap_blocks() > before; i++) {
    gc();
    await setTimeout(10);
  }
  assert.equal(wasm.heap_blocks(), before);
});

/** Calls with each allocation failing in turn, until none does, and returns the results. */
function withEachLimit(call) {
  const results = [];
  for (let allowed = 0; allowed < 1000; allowed++) {
    wasm.heap_allow(allowed);
    try {
      results.push(call());
      return results;
    } catch (error) {
      results.push(error.message);
    } finally {
      wasm.heap_allow(-1);
    }
  }
  throw new Error('memory always runs out');
}

test('where memory runs out, each call throws, and answers as ever afterwards', () => {
  const list = Array.from({ length: 50 }, (_, i) => `1.${i}.0-pre.${i}`);
  const calls = [
    () => semver.matches('^1.2 || 3', '1.3.0-a.b'),
    () => semver.filter('^1.2 || 3', list).length,
    () => semver.sort(list).length,
    () => semver.counterexample('^1.3 || 4', '^1.2'),
    () => semver.canonical('>=1.2 <2 || 3'),
    () => semver.parsePackage('@scope/name@1 || 2').name,
    () => semver.explain('>=1.2.3-b <2 || 1..2').canonical,
    () => semver.diagnose('^1.2.3.4').start,
    () => compat.maxSatisfying(list, '>=1.0.0-0 <2'),
    () => compat.minVersion('^1.2 || 3').version,
    () => compat.satisfies('1.2.3', `>=${Math.random()}.1`.replace('0.', '')),
  ];
  for (const call of calls) {
    const before = wasm.heap_blocks();
    const results = withEachLimit(call);
    assert.ok(results.slice(0, -1).every((message) => message === 'out of memory'), results.slice(0, -1).join());
    assert.deepEqual(results.at(-1), call());
    assert.ok(wasm.heap_blocks() - before <= 3, `${wasm.heap_blocks() - before} blocks`);
  }
});

test('a text that is larger than memory throws', () => {
  const large = '1'.repeat(2 ** 28);
  assert.throws(() => semver.filter('1', Array.from({ length: 3 }, () => large)), RangeError);
  assert.equal(semver.matches('1', '1.0.0'), true);
});

test('where memory has more than 2 GiB, texts are read as ever', () => {
  assert.equal(write('a'.repeat(3.6e8)), 3.6e8);
  assert.ok(pages() > 2 ** 31);
  assert.equal(semver.matches('^1.2', '1.3.0'), true);
  assert.throws(() => semver.matches('1 é', '1.0.0'), semver.RangeSyntaxError);
  assert.throws(() => semver.canonical(`${'1.2.3 '.repeat(20)}!`), semver.RangeSyntaxError);
  assert.deepEqual(semver.filter('1 || 2', ['1.0.0', `2.0.0+${'b'.repeat(100)}`, '3.0.0']).length, 2);
});

test('a text for which there are no addresses throws', () => {
  assert.throws(() => write({ length: 2 ** 32 / 3 }), { name: 'RangeError', message: 'out of memory' });
});

test('a text that the host encodes in part throws', (context) => {
  context.mock.method(TextEncoder.prototype, 'encodeInto', () => ({ read: 0, written: 0 }));
  assert.throws(() => semver.canonical('é'), { name: 'RangeError', message: 'out of memory' });
});
