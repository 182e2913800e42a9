// Calls that don't return: the stack runs out, the time of a `vm` runs out, a trap. Each later answer must be right.

import assert from 'node:assert/strict';
import { test } from 'node:test';
import { setTimeout } from 'node:timers/promises';
import vm from 'node:vm';
import { currentInstance, wasm } from '../out/package/calls.js';
import compat from '../out/package/compat.js';
import * as semver from '../out/package/index.js';
import { answersOf, overflow, questionsOf, runOutOfMemory } from './interrupted.mjs';

const questions = questionsOf(semver, compat);
const right = answersOf(questions);
const NO_ADDRESS = -16;

/** Lets a call trap, which leaves the instance as a call does that doesn't return. */
function trap() {
  assert.throws(() => wasm.range_normal(NO_ADDRESS), WebAssembly.RuntimeError);
}

test('the stack runs out 500 times', () => {
  const before = currentInstance();
  const { overflows, wrong } = overflow(questions);
  assert.deepEqual(wrong, []);
  assert.ok(overflows > 500 && currentInstance() - before > 40, `${overflows} overflows, ${currentInstance() - before} instances`);
});

test('the time of a vm runs out in each question', () => {
  const before = currentInstance();
  for (const [name, call] of Object.entries(questions)) {
    for (const timeout of [1, 2, 5]) {
      const run = () => vm.runInNewContext('for (;;) try { call() } catch {}', { call }, { timeout });
      assert.throws(run, { code: 'ERR_SCRIPT_EXECUTION_TIMEOUT' });
      assert.equal(answersOf(questions), right, name);
    }
  }
  assert.ok(currentInstance() > before, 'no call was interrupted');
});

test('a trap', () => {
  const before = currentInstance();
  trap();
  assert.equal(answersOf(questions), right);
  assert.equal(currentInstance(), before + 1);
  assert.equal(semver.canonical('é'.repeat(1e6)).length, 1e6); // memory grows
  trap();
  assert.equal(answersOf(questions), right);
});

test('memory runs out in each question', () => {
  assert.deepEqual(runOutOfMemory(questions, wasm), []);
});

test('memory runs out while held values are parsed again', () => {
  const [range, list] = [new semver.Range('^1.2'), new semver.VersionList(['1.2.0', '1.10.0', '2.0.0'])];
  for (let allowed = 0; ; allowed++) {
    trap();
    currentInstance();
    wasm.heap_allow(allowed);
    let error;
    try {
      list.best(range);
    } catch (thrown) {
      error = thrown;
    }
    wasm.heap_allow(-1);
    assert.equal(list.best(range), '1.10.0');
    if (!error) break;
    assert.deepEqual([error.name, error.message], ['RangeError', 'out of memory']);
    assert.ok(allowed < 100);
  }
});

test('a value of an instance that was replaced is freed once', () => {
  const ranges = Array.from({ length: 10 }, (_, i) => new semver.Range(`^1.${i}`));
  trap();
  const kept = ranges.splice(5);
  assert.ok(kept.every((range) => range.matches('1.9.0')));
  const before = wasm.heap_blocks();
  for (const range of ranges) range.free();
  assert.equal(wasm.heap_blocks(), before);
  assert.throws(() => ranges[0].matches('1.0.0'), { message: 'the value was freed' });
  assert.ok(kept.every((range) => range.matches('1.9.0')));
  for (const range of kept) range.free();
  assert.ok(wasm.heap_blocks() < before);
});

const needsGc = { skip: typeof gc === 'undefined' && 'no --expose-gc' };
test('a collected value of an instance that was replaced is not freed', needsGc, async () => {
  const collected = new FinalizationRegistry(() => left--);
  let left = 100;
  for (let i = 0; i < left; i++) collected.register(new semver.Range(`^1.${i}`));
  trap();
  const kept = Array.from({ length: left }, (_, i) => new semver.Range(`^1.${i}`));
  const before = wasm.heap_blocks();
  for (let i = 0; i < 50 && left > 0; i++) {
    gc();
    await setTimeout(10);
  }
  await setTimeout(10);
  assert.ok(left < 50, `${left} of 100 values weren't collected`);
  assert.equal(wasm.heap_blocks(), before);
  assert.ok(kept.every((range, i) => range.matches(`1.${i}.0`) && !range.matches('2.0.0')));
});
