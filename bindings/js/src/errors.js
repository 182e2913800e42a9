// Errors, and the checks of arguments.

import {
  INVALID_RANGE, INVALID_VERSION, NOT_UTF8, NO_MEMORY, TAG, YES, ask2, indexesOfBytes, isWellFormed, json, outOfMemory, text, wasm, write,
} from './calls.js';

const GRAMMARS = new Map([['npm', 0], ['normalized', 1], ['strict', 2]]);

/** The method by which Node shows a value. */
export const INSPECT = Symbol.for('nodejs.util.inspect.custom');

/** An invalid text. Where it goes wrong takes longer to find than all else, and is found once it's asked. */
class InvalidTextError extends SyntaxError {
  #find;
  #found;

  constructor(text, message, index, find) {
    super(message);
    this.text = text;
    if (index !== undefined) this.index = index;
    this.#find = find;
  }

  get #place() {
    return (this.#found ??= this.#find());
  }

  get start() {
    return this.#place.start;
  }

  get end() {
    return this.#place.end;
  }

  get expected() {
    return this.#place.expected;
  }

  [INSPECT](depth, options, inspect) {
    const { start, end, expected } = this;
    return `${this.stack} ${inspect({ ...this, start, end, expected }, options)}`;
  }
}

export class RangeSyntaxError extends InvalidTextError {}
export class VersionSyntaxError extends InvalidTextError {}
export class PackageSyntaxError extends InvalidTextError {}

export class TagError extends Error {
  constructor(tag) {
    super(`"${tag}" is a tag, the name that a registry gives a version`);
    this.tag = tag;
  }
}

// Names that a bundler doesn't shorten.
for (const [name, kind] of Object.entries({ RangeSyntaxError, VersionSyntaxError, PackageSyntaxError, TagError })) {
  Object.defineProperty(kind.prototype, 'name', { value: name, configurable: true, writable: true });
}

// The kinds of texts: `Problem` is the error of an invalid one, `parse` the call that parses it or writes a message, and `place` finds
// where it's invalid.
export const VERSION = { Problem: VersionSyntaxError, parse: (grammar, source) => wasm.version(write(source)), place: placeInVersion };
export const RANGE = { Problem: RangeSyntaxError, parse: (grammar, source) => wasm.normal(grammar, write(source)), place: placeInRange };
export const PACKAGE = { Problem: PackageSyntaxError, parse: (grammar, source) => wasm.package(grammar, write(source)), place: placeInPackage };
export const REFERENCE = { Problem: PackageSyntaxError, parse: (grammar, source) => wasm.reference(write(source)), place: placeInReference };
export const NAME_WITH_VERSION = { Problem: PackageSyntaxError, parse: (grammar, source) => wasm.name_with_version(write(source)) };
export const VERSION_REFERENCE = { Problem: PackageSyntaxError, parse: (grammar, source) => wasm.version_reference(write(source)) };
export const DEPENDENCY = { Problem: PackageSyntaxError, parse: (grammar, source) => wasm.dependency(grammar, write(source)) };

function placeInVersion(grammar, source) {
  if (wasm.version_error(write(source)) !== YES) throw outOfMemory();
  return { start: indexesOfBytes(source)[wasm.place()], end: source.length };
}

function placeInRange(grammar, source) {
  return firstPlace(wasm.errors(grammar, write(source)), source);
}

function placeInPackage(grammar, source) {
  return firstPlace(wasm.package_errors(grammar, write(source)), source);
}

function placeInReference(grammar, source) {
  return firstPlace(wasm.reference_errors(write(source)), source);
}

/** The place of the first of the errors that a call wrote, if there is one. */
function firstPlace(code, source) {
  if (code !== YES) throw outOfMemory();
  const [first] = json();
  return first && withIndexes(first, indexesOfBytes(source));
}

/** An error of the library's JSON, with indexes of the text instead of bytes. */
export function withIndexes({ message, start, end, expected }, indexes) {
  return { message, start: indexes[start], end: indexes[end], expected };
}

/** What is wrong with a text of a kind; null where it's valid. */
function messageOf(kind, grammar, source) {
  if (!isWellFormed(source)) return 'The string has a lone surrogate.';
  const code = kind.parse(grammar, source);
  if (code === NO_MEMORY) throw outOfMemory();
  return code === YES ? null : text();
}

/** Where an invalid text goes wrong, and what could be there. */
function placeOf(kind, grammar, source) {
  const { start, end, expected = [] } = (isWellFormed(source) && kind.place?.(grammar, source)) || {};
  return start === undefined ? { expected } : { start, end, expected };
}

/** Why a text of a kind is invalid; null where it's valid. */
export function reasonOf(kind, grammar, source) {
  const message = messageOf(kind, grammar, source);
  return message === null ? null : { message, ...placeOf(kind, grammar, source) };
}

/** The error that a text of a kind is invalid; `index` is its place in a list. */
export function invalid(kind, grammar, source, index) {
  return invalidBy(messageOf(kind, grammar, source) ?? 'The string is invalid.', kind, grammar, source, index);
}

/** The same with the message, which the call that parses the text wrote. */
export function invalidBy(message, kind, grammar, source, index) {
  return new kind.Problem(source, message, index, () => placeOf(kind, grammar, source));
}

/** The error of a call that was asked of these texts and returned a code that is no answer. */
export function errorOf(code, grammar, ranges, versions = [], place = 0, list = undefined) {
  switch (code) {
    case INVALID_RANGE:
      return invalid(RANGE, grammar, ranges[place], list === 'ranges' ? place : undefined);
    case INVALID_VERSION:
      return invalid(VERSION, grammar, versions[place], list === 'versions' ? place : undefined);
    case TAG:
      return new TagError(ranges.find((range) => isTag(grammar, range)));
    case NOT_UTF8:
      return notEncodable(grammar, ranges, versions, list);
    default:
      return outOfMemory();
  }
}

/** Whether the text is a tag, and not a range. */
function isTag(grammar, text) {
  const code = ask2(wasm.fits, grammar, text, '0.0.0', 0);
  if (code === NO_MEMORY) throw outOfMemory();
  return code === TAG;
}

function notEncodable(grammar, ranges, versions, list) {
  const at = ranges.findIndex((text) => !isWellFormed(text));
  if (at >= 0) return invalid(RANGE, grammar, ranges[at], list === 'ranges' ? at : undefined);
  const place = versions.findIndex((text) => !isWellFormed(text));
  return invalid(VERSION, grammar, versions[place], list === 'versions' ? place : undefined);
}

/** Throws where the value isn't a string. */
export function expectString(value, name) {
  if (typeof value !== 'string') throw new TypeError(`${name} must be a string, not ${kindOf(value)}`);
  return value;
}

export function kindOf(value) {
  if (value === null) return 'null';
  return Array.isArray(value) ? 'an array' : typeof value;
}

// What a `Version` and a `Range` of any copy of this package say of themselves.
export const VERSION_TEXT = Symbol.for('deno-semver.version');
export const RANGE_PARTS = Symbol.for('deno-semver.range');

/** The text of a version that is a text or a `Version`. */
export function versionText(version, name) {
  const text = typeof version === 'string' ? version : version?.[VERSION_TEXT];
  if (typeof text === 'string') return text;
  throw new TypeError(`${name} must be a string or a Version, not ${kindOf(version)}`);
}

/** The text and the options of a range that is a text or a `Range`; a text has no options. */
function rangeParts(range, name) {
  if (typeof range === 'string') return { text: range };
  const parts = range?.[RANGE_PARTS];
  if (parts === undefined) throw new TypeError(`${name} must be a string or a Range, not ${kindOf(range)}`);
  return parts;
}

const NAMES = ['grammar', 'preReleases'];

/** The options by their names; each is one of `names`. */
export function expectOptions(options, names) {
  if (options === undefined) return {};
  if (options === null || typeof options !== 'object') throw new TypeError(`options must be an object, not ${kindOf(options)}`);
  for (const name of Object.keys(options)) {
    if (!names.includes(name)) throw new TypeError(`options has no "${name}"`);
  }
  return options;
}

export function expectBoolean(value, name) {
  if (typeof value !== 'boolean') throw new TypeError(`${name} must be a boolean, not ${kindOf(value)}`);
  return value;
}

/** The texts of ranges, which are given by their names, and how they are asked: as the options say, or else the first `Range` of them. */
export function questionOf(ranges, options, names = NAMES) {
  const given = Object.entries(ranges).map(([name, range]) => [name, rangeParts(range, name)]);
  const held = given.map(([, parts]) => parts.options).find((it) => it !== undefined);
  const { grammar = held?.grammar ?? 'npm', preReleases = held?.preReleases ?? false } = expectOptions(options, names);
  if (!GRAMMARS.has(grammar)) throw new TypeError('options.grammar must be "npm", "normalized" or "strict"');
  expectBoolean(preReleases, 'options.preReleases');
  for (const [name, parts] of given) {
    const its = parts.options?.grammar ?? grammar;
    if (its !== grammar) throw new TypeError(`${name} is a Range of the grammar "${its}", not "${grammar}"`);
  }
  return { texts: given.map(([, { text }]) => text), grammar: GRAMMARS.get(grammar), name: grammar, pre: preReleases ? 1 : 0 };
}
