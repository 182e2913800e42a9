// A comparator: an operator and a version, or any version.

import { haveCommon } from './asked.js';
import { grammarFor, isUsual, withSingleSpaces } from './grammar.js';
import { optionsOf } from './options.js';
import { SemVer, semverOf } from './semver.js';

const ANY = Symbol('any version');

const TESTS = {
  '': (order) => order === 0,
  '>': (order) => order > 0,
  '>=': (order) => order >= 0,
  '<': (order) => order < 0,
  '<=': (order) => order <= 0,
};

export class Comparator {
  static get ANY() {
    return ANY;
  }

  constructor(comparator, options) {
    const settings = optionsOf(options);
    if (comparator instanceof Comparator) {
      if (comparator.loose === Boolean(settings.loose)) return comparator;
      comparator = comparator.value;
    }
    const source = withSingleSpaces(comparator);
    const { operator, version } = partsOf(source);
    if (!isUsual(version) && !isComparator(source, settings)) throw new TypeError(`Invalid comparator: ${source}`);
    this.options = settings;
    this.loose = Boolean(settings.loose);
    this.operator = operator === '=' ? '' : operator;
    this.semver = version ? new SemVer(version, settings.loose) : ANY;
    this.value = version ? this.operator + this.semver.version : '';
  }

  toString() {
    return this.value;
  }

  test(version) {
    if (this.semver === ANY || version === ANY) return true;
    const tested = parsed(version, this.options);
    return tested !== undefined && TESTS[this.operator](tested.compare(this.semver));
  }

  intersects(comparator, options) {
    if (!(comparator instanceof Comparator)) throw new TypeError('a Comparator is required');
    return haveCommon(asRange(this), asRange(comparator), Boolean(optionsOf(options).includePrerelease));
  }
}

/** The range of a comparator alone. */
function asRange(comparator) {
  return { set: [[comparator]], range: comparator.value };
}

function partsOf(source) {
  const length = source[0] === '<' || source[0] === '>' ? 1 : 0;
  const operator = source.slice(0, source[length] === '=' ? length + 1 : length);
  return { operator, version: source.slice(operator.length).trim() };
}

/** Whether the text, whose whitespace is single spaces, is a comparator. */
export function isComparator(source, options) {
  return source === '' || grammarFor(options).version.test(partsOf(source).version);
}

/** The `value` of the comparator that a text without whitespace is; undefined where it's none. */
export function valueOf(source, options) {
  const { operator, version } = partsOf(source);
  if (isUsual(version)) return operator === '=' ? version : source;
  return isComparator(source, options) ? new Comparator(source, options).value : undefined;
}

/** The version; undefined for an invalid text. */
export function parsed(version, options) {
  if (typeof version !== 'string') return semverOf(version, options);
  try {
    return new SemVer(version, options);
  } catch (error) {
    if (error instanceof TypeError) return undefined;
    throw error;
  }
}
