// Ranges as node-semver has them. They are read here, into comparators; which versions these match, the library says.

import { kindOf } from '../errors.js';
import { haveCommon, matches, matchesText, textOf } from './asked.js';
import { Comparator, isComparator, parsed, valueOf } from './comparator.js';
import { desugar } from './desugar.js';
import { isUsual, withSingleSpaces } from './grammar.js';
import { optionsOf } from './options.js';

const MOST_READ = 1000;
const LONGEST_READ = 256;
const NOTHING = '<0.0.0-0';

// What the last ranges read as, by their texts, for each of the four kinds of options; null for an invalid text.
const readings = [new Map(), new Map(), new Map(), new Map()];

/** What a text reads as. Most calls need its `range` alone, so `set` is made where it's asked for. */
class Reading {
  #alternatives;
  #options;
  #set;

  constructor(raw, alternatives, options) {
    this.raw = raw;
    this.range = alternatives.map((comparators) => [...comparators.keys()].join(' ')).join('||');
    this.#alternatives = alternatives;
    this.#options = { ...options }; // as they are now, since the caller may change them
  }

  get set() {
    const comparatorsOf = (texts) => [...texts.values()].map((text) => new Comparator(text, this.#options));
    return (this.#set ??= this.#alternatives.map(comparatorsOf));
  }
}

export class Range {
  constructor(range, options) {
    const settings = optionsOf(options);
    if (range instanceof Range) {
      if (range.loose === Boolean(settings.loose) && range.includePrerelease === Boolean(settings.includePrerelease)) return range;
      range = range.raw;
    }
    this.options = settings;
    this.loose = Boolean(settings.loose);
    this.includePrerelease = Boolean(settings.includePrerelease);
    if (range instanceof Comparator) {
      this.raw = range.value;
      this.set = [[range]];
      this.format();
    } else {
      const reading = expectReading(range, settings);
      this.raw = reading.raw;
      this.set = [...reading.set];
      this.range = reading.range;
    }
  }

  format() {
    this.range = textOf(this.set);
    return this.range;
  }

  toString() {
    return this.range;
  }

  test(version) {
    return isMatch(this, version, this.options);
  }

  intersects(range, options) {
    if (!(range instanceof Range)) throw new TypeError('a Range is required');
    const includesPre = optionsOf(options).includePrerelease || (this.includePrerelease && range.includePrerelease);
    return haveCommon(this, range, Boolean(includesPre));
  }
}

/** Whether the version, a text or a `SemVer`, matches a range, or what a text reads as; false where it's invalid. */
export function isMatch(read, version, options) {
  const includesPre = Boolean(options.includePrerelease);
  if (isUsual(version)) return matchesText(read.range, version, includesPre);
  const tested = version ? parsed(version, options) : undefined;
  return tested !== undefined && matches(read, tested, includesPre);
}

/** What a range is, or a text reads as: its `set` and its `range`; undefined where it's invalid. It isn't to be changed. */
export function readable(range, options) {
  if (typeof range === 'string') return readingOf(range, options) ?? undefined;
  return range instanceof Range || range instanceof Comparator ? new Range(range, options) : undefined;
}

/** The same, and `TypeError` where it's invalid. */
export function expectReadable(range, options) {
  return readable(range, options) ?? new Range(range, options);
}

/** What the last ranges read as with these options. */
function knownOf(options) {
  return readings[(options.loose ? 2 : 0) + (options.includePrerelease ? 1 : 0)];
}

/** Keeps what a text reads as, and returns it. */
function keep(text, options, reading) {
  const known = knownOf(options);
  if (text.length <= LONGEST_READ) {
    if (known.size >= MOST_READ) known.delete(known.keys().next().value);
    known.set(text, reading);
  }
  return reading;
}

/** What a text reads as; null where it's invalid. Most invalid texts are found without an error, which costs ten times as much. */
function readingOf(text, options) {
  const found = knownOf(options).get(text);
  return found === undefined ? keep(text, options, readOrNull(text, options)) : found;
}

/** The same, and `TypeError` where it's invalid. */
function expectReading(text, options) {
  if (typeof text !== 'string') throw new TypeError(`range must be a string, a Range or a Comparator, not ${kindOf(text)}`);
  return readingOf(text, options) ?? failToRead(withSingleSpaces(text), options);
}

/** Throws what is wrong with a text: a comparator, or that there is none. */
function failToRead(raw, options) {
  const texts = desugared(raw, options).flat();
  for (const text of options.loose ? texts.filter((it) => isComparator(it, options)) : texts) new Comparator(text, options);
  throw new TypeError(`Invalid SemVer Range: ${raw}`);
}

function readOrNull(text, options) {
  const raw = withSingleSpaces(text);
  try {
    const alternatives = alternativesOf(desugared(raw, options).map((texts) => comparatorsOf(texts, options)));
    return alternatives && new Reading(raw, alternatives, options);
  } catch (error) {
    if (error instanceof TypeError) return null;
    throw error;
  }
}

/** The texts of the comparators of each alternative. */
function desugared(range, options) {
  return range.split('||').map((text) => desugar(text.trim(), options));
}

/**
 * The alternatives of a range; null where one is invalid, or there is none. Where one matches any version it is the only one, and those that
 * match nothing are left out.
 */
function alternativesOf(read) {
  if (read.includes(undefined)) return null;
  const some = read.filter((comparators) => comparators.size > 0);
  if (some.length === 0) return null;
  const set = some.filter((comparators) => !comparators.has(NOTHING));
  if (set.length === 0) return [some[0]];
  const any = set.find((comparators) => comparators.has(''));
  return any ? [any] : set;
}

/**
 * The texts of the comparators of an alternative, by their values; undefined where one is invalid, which `loose` leaves out. One that matches
 * nothing is the only one, and one that matches any version isn't kept.
 */
function comparatorsOf(texts, options) {
  const comparators = new Map();
  for (const text of texts) {
    const value = valueOf(text, options);
    if (value !== undefined) comparators.set(value, text);
    else if (!options.loose) return undefined;
  }
  if (comparators.has(NOTHING)) return new Map([[NOTHING, comparators.get(NOTHING)]]);
  if (comparators.size > 1) comparators.delete('');
  return comparators;
}
