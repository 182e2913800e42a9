// The calls of semver.wasm: texts in, a code out, and then what the call wrote.

import './module/semver.js';
import { expand } from './expand.js';

/** The codes of the C API: answers are 0 and above, the others are negative. */
export const NO = 0;
export const YES = 1;
export const TAG = -1;
export const INVALID_RANGE = -2;
export const INVALID_VERSION = -3;
export const NOT_UTF8 = -4;
export const NO_MEMORY = -6;

const encoder = new TextEncoder();
const decoder = new TextDecoder();
const SHORT = 48; // up to this length a loop over the characters is faster than TextEncoder and TextDecoder
const ADDRESSES = 2 ** 32;
const NOT_ENCODABLE = 0xff; // a byte that is in no UTF-8, so that a text with it is rejected

const { base64, size, names } = globalThis[Symbol.for('deno-semver.wasm')];

/** The bytes of the module. A loop takes a fifth of the time of `Uint8Array.from`. */
function bytesOfModule() {
  const characters = atob(base64);
  const bytes = new Uint8Array(characters.length);
  for (let i = 0; i < bytes.length; i++) bytes[i] = characters.charCodeAt(i);
  return expand(bytes, size);
}

// The first call compiles the module and makes the instance, as a call does after one that didn't return. So an import is quick.
let compiled;
let instance;
let replaced = 0;
let isCalling = true;
let memory;
let input = 0;
let room = 0;

// What points each export at a new instance.
const links = [];

/** An export that stays the same function when the instance is replaced, and marks that it runs. */
function linked(name) {
  let call;
  links.push(() => {
    call = instance[name];
  });
  return (a, b, c, d) => {
    isCalling = true;
    const result = call(a, b, c, d);
    isCalling = false;
    return result;
  };
}

/** The calls of the module. */
export const wasm = Object.fromEntries(names.map((name) => [name, linked(name)]));

/**
 * Makes the instance, or replaces one whose last call didn't return: where the stack or the time of a `vm` runs out, or the call traps. A
 * call that asks a value leaves it as it was, but one that is interrupted may leave the stack pointer moved, or the allocator between two
 * states. What the old instance held is lost. If this is interrupted itself, the next call begins it again.
 */
function replace() {
  compiled ??= new WebAssembly.Module(bytesOfModule());
  instance = new WebAssembly.Instance(compiled).exports;
  for (const link of links) link();
  memory = new Uint8Array(instance.memory.buffer);
  room = 0;
  replaced++;
  isCalling = false;
}

/** The number of the instance that answers the next call. An address is of use to the instance alone that returned it. */
export function currentInstance() {
  if (isCalling) replace();
  return replaced;
}

/** The memory of the module. When it grows, the view of before has no length. */
export function view() {
  if (memory.length === 0) memory = new Uint8Array(instance.memory.buffer);
  return memory;
}

/** Makes room for texts with so many UTF-16 units, each of which has three bytes at most. */
function reserve(units) {
  if (isCalling) replace();
  const size = 3 * units + 1;
  if (size <= room) return;
  const start = size < ADDRESSES ? wasm.input(size) >>> 0 : 0; // exports return signed numbers
  if (start === 0) throw outOfMemory();
  input = start;
  room = size;
}

/** Whether the text has no lone surrogate. */
export function isWellFormed(text) {
  return text.isWellFormed ? text.isWellFormed() : !/\p{Surrogate}/u.test(text);
}

/** Writes a text `offset` bytes behind the start of the input, and returns how many bytes it has. */
function put(text, offset) {
  const target = view();
  const start = input + offset;
  const { length } = text;
  if (length <= SHORT) {
    let i = 0;
    for (; i < length; i++) {
      const unit = text.charCodeAt(i);
      if (unit > 127) break;
      target[start + i] = unit;
    }
    if (i === length) return length;
  }
  // Some hosts write nothing into a view of more than 2 GiB.
  const { read, written } = encoder.encodeInto(text, target.subarray(start, start + 3 * length));
  if (read !== length) throw outOfMemory();
  if (written === length || isWellFormed(text)) return written;
  target[start] = NOT_ENCODABLE;
  return 1;
}

/** Writes a text to the input, and returns its length there. */
export function write(text) {
  reserve(text.length);
  return put(text, 0);
}

/** Calls with the lengths of two texts behind the grammar: `call(grammar, a, b, last)`. */
export function ask2(call, grammar, one, other, last) {
  reserve(one.length + other.length);
  const a = put(one, 0);
  return call(grammar, a, put(other, a), last);
}

/** Calls with the length of one text behind the grammar: `call(grammar, a, last)`. */
export function ask1(call, grammar, text, last) {
  return call(grammar, write(text), last);
}

/** Asks whether the version matches the range at this address. It's the call that is asked most, and so it marks by itself that it runs. */
export function askHeld(address, version, pre) {
  const length = write(version);
  isCalling = true;
  const code = instance.range_fits(address, length, pre);
  isCalling = false;
  return code;
}

/** Compares two texts of versions. */
export function askCompare(one, other) {
  reserve(one.length + other.length);
  const a = put(one, 0);
  return wasm.compare(a, put(other, a));
}

/** The bytes that the last call wrote; they change with the next call. */
function written() {
  const start = wasm.output() >>> 0;
  return view().subarray(start, start + wasm.output_len());
}

/** The text that the last call wrote. */
export function text() {
  const start = wasm.output() >>> 0;
  const end = start + wasm.output_len();
  const source = view();
  if (end - start <= SHORT) {
    let short = '';
    let i = start;
    for (; i < end && source[i] < 128; i++) short += String.fromCharCode(source[i]);
    if (i === end) return short;
  }
  return decoder.decode(source.subarray(start, end));
}

/** The value of the JSON that the last call wrote. */
export function json() {
  return JSON.parse(text());
}

/** The index in a text of each byte of its UTF-8, and that of its end. */
export function indexesOfBytes(text) {
  const encoded = encoder.encode(text);
  const indexes = new Uint32Array(encoded.length + 1);
  encoded.forEach((byte, at) => {
    indexes[at + 1] = indexes[at] + unitsOf(byte);
  });
  return indexes;
}

/** How many UTF-16 units a character has whose first byte this is; none if it's another byte. */
function unitsOf(byte) {
  if (byte >= 0xf0) return 2;
  return (byte & 0xc0) === 0x80 ? 0 : 1;
}

/** The address of the value that the last call made. */
export function handle() {
  return wasm.handle() >>> 0;
}

/** The codes of lines that the last call wrote. */
export function codes() {
  return new Int8Array(new Uint8Array(written()).buffer);
}

/** The places that the last call wrote. */
export function places() {
  return new Uint32Array(new Uint8Array(written()).buffer);
}

/** The error that the library has run out of memory. */
export function outOfMemory() {
  return new RangeError('out of memory');
}
