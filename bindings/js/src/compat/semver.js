// Versions as node-semver has them. The library parses and orders them.

import { NO_MEMORY, YES, askCompare, outOfMemory, text, wasm, write } from '../calls.js';
import { askIncrement, isReleaseType, nextVersion } from '../steps.js';
import { LONGEST_VERSION, grammarFor, isBuild, isUsual } from './grammar.js';
import { preReleaseBehind, raise } from './increment.js';
import { optionsOf } from './options.js';

const ZERO = '0'.charCodeAt(0);
const NINE = '9'.charCodeAt(0);
const FIRST_WITH_EXPONENT = 1e21;

export class SemVer {
  constructor(version, options) {
    const settings = optionsOf(options);
    if (version instanceof SemVer) {
      if (version.loose === Boolean(settings.loose) && version.includePrerelease === Boolean(settings.includePrerelease)) return version;
      version = version.version;
    } else if (typeof version !== 'string') {
      throw new TypeError(`Invalid version. Must be a string. Got type "${typeof version}".`);
    }
    if (version.length > LONGEST_VERSION) throw new TypeError(`version is longer than ${LONGEST_VERSION} characters`);
    this.options = settings;
    this.loose = Boolean(settings.loose);
    this.includePrerelease = Boolean(settings.includePrerelease);
    this.raw = version;
    if (isUsual(version)) this.#readUsual(version);
    else this.#read(version.trim());
  }

  /** Reads a usual version, whose digits alone are at or above `0`. */
  #readUsual(version) {
    let at = 0;
    const readNumber = () => {
      let number = 0;
      for (let unit = version.charCodeAt(at++); unit >= ZERO; unit = version.charCodeAt(at++)) number = 10 * number + unit - ZERO;
      return number;
    };
    this.major = readNumber();
    this.minor = readNumber();
    this.patch = readNumber();
    this.prerelease = at > version.length ? [] : partsOf(version, at).map(identifierOf);
    this.build = [];
    this.version = version;
  }

  /** Reads a usual version behind a `v` or with a build, or any other version. */
  #read(version) {
    const plus = version.indexOf('+');
    const end = plus < 0 ? version.length : plus;
    const usual = version.slice(version[0] === 'v' ? 1 : 0, end);
    const isWithBuild = plus >= 0 && isBuild(version.slice(plus + 1));
    if (isUsual(usual) && (plus < 0 || isWithBuild)) {
      this.#readUsual(usual);
      if (isWithBuild) this.build = partsOf(version, plus + 1);
    } else this.#readByGrammar(version);
  }

  #readByGrammar(version) {
    const parts = grammarFor(this.options).version.exec(version);
    if (!parts) throw new TypeError(`Invalid Version: ${this.raw}`);
    this.major = exactly(parts[1], 'major');
    this.minor = exactly(parts[2], 'minor');
    this.patch = exactly(parts[3], 'patch');
    this.prerelease = parts[4] ? parts[4].split('.').map(identifierOf) : [];
    this.build = parts[5] ? parts[5].split('.') : [];
    expectParsed(this.format());
  }

  format() {
    const numbers = `${this.major}.${this.minor}.${this.patch}`;
    this.version = this.prerelease.length ? `${numbers}-${this.prerelease.join('.')}` : numbers;
    return this.version;
  }

  toString() {
    return this.version;
  }

  compare(other) {
    const that = semverOf(other, this.options);
    return this.compareMain(that) || this.comparePre(that);
  }

  compareMain(other) {
    const that = semverOf(other, this.options);
    return Math.sign(this.major - that.major) || Math.sign(this.minor - that.minor) || Math.sign(this.patch - that.patch);
  }

  comparePre(other) {
    const [one, two] = [this.prerelease, semverOf(other, this.options).prerelease];
    if (one.length === 0 || two.length === 0) return Math.sign(Number(one.length === 0) - Number(two.length === 0));
    return compareLists(one, two, orderOfIdentifiers) ?? orderOf(`0.0.0-${one.join('.')}`, `0.0.0-${two.join('.')}`);
  }

  compareBuild(other) {
    return compareLists(this.build, semverOf(other, this.options).build, compareIdentifiers);
  }

  inc(releaseType, identifier, identifierBase) {
    const start = identifier ? String(identifier) : '';
    const base = identifierBase === false ? false : Number(Boolean(Number(identifierBase)));
    const prerelease = preReleaseBehind(this.prerelease, releaseType, start, base);
    const { build } = this;
    if (prerelease && Math.max(this.major, this.minor, this.patch) < Number.MAX_SAFE_INTEGER) {
      raise(this, releaseType);
      this.prerelease = prerelease;
    } else Object.assign(this, new SemVer(this.#next(releaseType, start, base), this.options), { build });
    this.raw = this.format();
    if (build.length) this.raw += `+${build.join('.')}`;
    return this;
  }

  /** The text of the next version, as the library has it. */
  #next(releaseType, identifier, base) {
    if (releaseType === 'pre' && this.prerelease.length === 0) {
      const start = [identifier, base].filter((it) => it !== '' && it !== false);
      if (start.length === 0) throw new Error('invalid increment argument: identifier is empty');
      return `${this.version}-${start.join('.')}`;
    }
    const type = releaseType === 'pre' ? 'prerelease' : releaseType;
    if (!isReleaseType(type)) throw new Error(`invalid increment argument: ${releaseType}`);
    const code = askIncrement(this.version, type, type.startsWith('pre') ? identifier : '', base);
    return nextVersion(code, text(), this.version);
  }
}

/** The parts of a text from here on, between its dots. A loop takes a third of the time of `split`. */
function partsOf(text, start) {
  const parts = [];
  let from = start;
  for (let dot = text.indexOf('.', from); dot >= 0; dot = text.indexOf('.', from)) {
    parts.push(text.slice(from, dot));
    from = dot + 1;
  }
  parts.push(text.slice(from));
  return parts;
}

/** The number that the digits are. */
function exactly(digits, name) {
  const number = Number(digits);
  if (number > Number.MAX_SAFE_INTEGER) throw new TypeError(`Invalid ${name} version`);
  return number;
}

/** Whether a text has digits alone. A loop over a short text takes less time than a regular expression. */
function isDigits(text) {
  for (let i = 0; i < text.length; i++) {
    const unit = text.charCodeAt(i);
    if (unit < ZERO || unit > NINE) return false;
  }
  return text.length > 0;
}

/** An identifier of a pre-release: a number where one of JavaScript is exact. */
function identifierOf(identifier) {
  const number = isDigits(identifier) ? Number(identifier) : NaN;
  return number < Number.MAX_SAFE_INTEGER ? number : identifier;
}

/** Whether an identifier of a version is a number that isn't exact in JavaScript. */
function isLarge(identifier) {
  return typeof identifier === 'string' && isDigits(identifier);
}

/** Throws where the library doesn't parse the version. */
function expectParsed(version) {
  const code = wasm.version(write(version));
  if (code === YES) return;
  throw code === NO_MEMORY ? outOfMemory() : new TypeError(`Invalid Version: ${version}`);
}

export function semverOf(version, options) {
  return version instanceof SemVer ? version : new SemVer(version, options);
}

/** The order of two valid versions by precedence. */
export function orderOf(one, other) {
  const code = askCompare(one, other);
  if (code < 0) throw outOfMemory();
  return code - 1;
}

/** Whether an identifier is a number, or the digits of one. */
function isNumeric(identifier) {
  if (typeof identifier !== 'number') return isDigits(String(identifier));
  return Number.isInteger(identifier) && identifier >= 0 && identifier < FIRST_WITH_EXPONENT;
}

export function compareIdentifiers(one, other) {
  const [isOne, isOther] = [isNumeric(one), isNumeric(other)];
  if (isOne !== isOther) return isOne ? -1 : 1;
  const [a, b] = isOne ? [Number(one), Number(other)] : [one, other];
  return a === b ? 0 : a < b ? -1 : 1;
}

export function rcompareIdentifiers(one, other) {
  return compareIdentifiers(other, one);
}

/** The order of two identifiers of pre-releases; undefined where a number isn't exact in JavaScript. */
function orderOfIdentifiers(one, other) {
  return isLarge(one) || isLarge(other) ? undefined : compareIdentifiers(one, other);
}

/** The order of two lists: that of the first identifiers that differ, or the shorter list first. */
function compareLists(one, other, order) {
  const shared = Math.min(one.length, other.length);
  for (let i = 0; i < shared; i++) {
    const found = one[i] === other[i] ? 0 : order(one[i], other[i]);
    if (found !== 0) return found;
  }
  return Math.sign(one.length - other.length);
}
