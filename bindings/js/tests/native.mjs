// Asks semver.wasm and the static library the same random questions, invalid texts and failing allocations among them:
//
//     node native.mjs PROGRAM [QUESTIONS] [SEED]
//
// PROGRAM is native.c over the static library. Both run the same C code, and so their answers must be the same bytes.

import assert from 'node:assert/strict';
import { execFileSync } from 'node:child_process';
import { mkdtempSync, rmSync, writeFileSync } from 'node:fs';
import { tmpdir } from 'node:os';
import { join } from 'node:path';
import { currentInstance, view, wasm } from '../out/package/calls.js';
import { Texts } from './random.mjs';

const [program, count = '100000', seed = '1'] = process.argv.slice(2);
const texts = new Texts(Number(seed));
const NAME = 20;
const HEAD = NAME + 5 * 4;
const NO_LIMIT = 0x7fffffff;

/** The kinds of questions: what the two texts are, and the arguments that each call has behind its lengths. */
const CALLS = {
  fits: ['range', 'version', (g, a, b, last) => [g, a, b, last]],
  filter: ['range', 'versions', (g, a, b, last) => [g, a, b, last]],
  best: ['range', 'versions', (g, a, b, last) => [g, a, b, last]],
  lowest: ['range', 'versions', (g, a, b, last) => [g, a, b, last]],
  simplify: ['range', 'versions', (g, a, b, last) => [g, a, b, last]],
  within: ['range', 'range', (g, a, b, last) => [g, a, b, last]],
  common: ['range', 'range', (g, a, b, last) => [g, a, b, last]],
  equivalent: ['range', 'range', (g, a, b, last) => [g, a, b, last]],
  intersects: ['range', 'range', (g, a, b) => [g, a, b]],
  increment: ['version', 'odd', (g, a, b, last) => [g, a, b, last]],
  difference: ['version', 'version', (g, a, b) => [a, b]],
  compare: ['version', 'version', (g, a, b) => [a, b]],
  sort: ['versions', null, (g, a, b, last) => [a, last]],
  common_all: ['ranges', null, (g, a, b, last) => [g, a, last]],
  min_version: ['range', null, (g, a, b, last) => [g, a, last]],
  normal: ['range', null, (g, a) => [g, a]],
  version: ['version', null, (g, a) => [a]],
  key: ['version', null, (g, a) => [a]],
  package: ['package', null, (g, a) => [g, a]],
  reference: ['reference', null, (g, a) => [a]],
  explain: ['range', null, (g, a, b, last) => [g, a, last]],
  errors: ['range', null, (g, a) => [g, a]],
  package_errors: ['package', null, (g, a) => [g, a]],
  reference_errors: ['reference', null, (g, a) => [a]],
  version_error: ['version', null, (g, a) => [a]],
  version_parts: ['version', null, (g, a) => [a]],
  name_with_version: ['named', null, (g, a) => [a]],
  version_reference: ['versionReference', null, (g, a) => [a]],
  dependency: ['reference', null, (g, a) => [g, a]],
  export_name: ['path', null, (g, a) => [a]],
  may_be_tag: ['odd', null, (g, a) => [a]],
  range_fits: ['range', 'version'],
  range_normal: ['range', null],
  range_text: ['range', null],
  range_is_tag: ['range', null],
  range_scans: ['range', null],
  range_intersects: ['range', 'range'],
  range_equal: ['range', 'range'],
  list_filter: ['range', 'versions'],
  list_best: ['range', 'versions'],
  list_lowest: ['range', 'versions'],
  list_sort: ['range', 'versions'],
};

/** The bytes of a text. A lone surrogate is a byte that is in no UTF-8. */
function bytesOf(text) {
  return Buffer.concat([...text].map((character) => (/\p{Surrogate}/u.test(character) ? Buffer.of(0xff) : Buffer.from(character))));
}

/** Puts random bytes into the text: most such texts aren't valid UTF-8. */
function corrupt(bytes) {
  const changed = Buffer.from(bytes);
  for (let i = 0; i < 1 + texts.below(3) && changed.length; i++) changed[texts.below(changed.length)] = texts.below(256);
  return changed;
}

/** A text of a kind, an odd one, or a long one with characters of several bytes, which are checked 64 bytes at a time. */
function textOf(kind) {
  if (kind === null) return Buffer.alloc(0);
  const isOdd = texts.below(8) === 0 && kind !== 'versions';
  const text = texts.below(20) ? texts[isOdd ? 'odd' : kind]() : texts[kind]() + '/é日😀'.repeat(texts.below(30));
  const bytes = bytesOf(text);
  return texts.below(20) ? bytes : corrupt(bytes);
}

function makeQuestion() {
  const name = texts.pick(Object.keys(CALLS));
  const [one, other] = CALLS[name].slice(0, 2).map(textOf);
  const isSort = name === 'sort' || name === 'list_sort';
  return {
    name,
    allocations: texts.below(3) ? NO_LIMIT : texts.below(12),
    first: texts.below(20) ? texts.below(3) : 3,
    last: isSort ? linesOf(name === 'sort' ? one : other) : texts.below(2),
    one,
    other,
  };
}

/** How many lines the bytes have. */
function linesOf(bytes) {
  const ends = bytes.filter((byte) => byte === 10).length;
  return ends + (bytes.length > 0 && bytes.at(-1) !== 10 ? 1 : 0);
}

function encode({ name, allocations, first, last, one, other }) {
  const head = Buffer.alloc(HEAD);
  head.write(name, 'latin1');
  [allocations, first, last, one.length, other.length].forEach((number, index) => head.writeInt32LE(number, NAME + 4 * index));
  return Buffer.concat([head, one, other]);
}

/** Asks of a range and the list at the front of the input. */
function askList(range, { name, last, other }) {
  const code = wasm.list_read(other.length);
  if (code !== 1) return code;
  const list = wasm.handle();
  const answer = name === 'list_sort' ? wasm.list_sort(list, last) : wasm[name](list, range, last);
  wasm.list_free(list);
  return answer;
}

/** Asks of a range and the text at the front of the input. */
function askHeldBy(range, question) {
  const { name, first, last, other } = question;
  if (name.startsWith('list_')) return askList(range, question);
  if (name === 'range_fits') return wasm.range_fits(range, other.length, last);
  if (CALLS[name][1] === null) return wasm[name](range, last);
  const code = wasm.range_read(first, other.length);
  if (code !== 1) return code;
  const second = wasm.handle();
  const answer = wasm[name](range, second);
  wasm.range_free(second);
  return answer;
}

/** Parses the first text, and asks of the range and the second one. */
function askHeld(question, input) {
  const { first, one, other } = question;
  const code = wasm.range_read(first, one.length);
  if (code !== 1) return code;
  const range = wasm.handle();
  view().copyWithin(input, input + one.length, input + one.length + other.length);
  const answer = askHeldBy(range, question);
  wasm.range_free(range);
  return answer;
}

function ask(question) {
  const { name, allocations, first, last, one, other } = question;
  const input = wasm.input(one.length + other.length);
  view().set(Buffer.concat([one, other]), input);
  wasm.heap_allow(allocations === NO_LIMIT ? -1 : allocations);
  const lengths = CALLS[name][2]?.(first, one.length, other.length, last);
  const code = lengths ? wasm[name](...lengths) : askHeld(question, input);
  wasm.heap_allow(-1);
  const written = view().subarray(wasm.output(), wasm.output() + wasm.output_len());
  const numbers = Buffer.alloc(12);
  [code, wasm.place(), written.length].forEach((number, index) => numbers.writeInt32LE(number, 4 * index));
  return Buffer.concat([numbers, written]);
}

const questions = Array.from({ length: Number(count) }, makeQuestion);
const folder = mkdtempSync(join(tmpdir(), 'semver-'));
const file = join(folder, 'questions');
writeFileSync(file, Buffer.concat(questions.map(encode)));
currentInstance(); // makes the instance, which the first call would make
const before = wasm.heap_blocks();
const answers = questions.map(ask);
const native = execFileSync(program, [file], { maxBuffer: 2 ** 30 });
rmSync(folder, { recursive: true });

let at = 0;
const codes = new Map();
answers.forEach((answer, index) => {
  const other = native.subarray(at, at + answer.length);
  at += answer.length;
  const { name, one, other: second, ...rest } = questions[index];
  assert.deepEqual(other, answer, `question ${index}: ${name} ${JSON.stringify([String(one), String(second), rest])}`);
  codes.set(answer.readInt32LE(0), (codes.get(answer.readInt32LE(0)) ?? 0) + 1);
});
assert.equal(at, native.length);
assert.ok(wasm.heap_blocks() <= before + 2, `${wasm.heap_blocks() - before} blocks are lost`);
const counts = [...codes].sort(([a], [b]) => a - b).map(([code, times]) => `${times} of code ${code}`);
console.log(`${answers.length} answers of semver.wasm and the static library are the same: ${counts.join(', ')}`);
