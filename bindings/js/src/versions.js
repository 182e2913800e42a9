// Versions.

import { NO_MEMORY, YES, askCompare, outOfMemory, text, wasm, write } from './calls.js';
import { INSPECT, VERSION, VERSION_TEXT, invalid, versionText } from './errors.js';
import { isPlain } from './plain.js';

export class Version {
  #text;
  #digits;
  #numbers;

  constructor(version) {
    const source = versionText(version, 'version');
    this.#text = isPlain(source) ? source : displayed(source);
  }

  /** The text of the three numbers, and each of them. */
  get #parts() {
    return (this.#digits ??= /^(\d+)\.(\d+)\.(\d+)/.exec(this.#text));
  }

  get major() {
    return exactly(this.#parts[1]);
  }

  get minor() {
    return exactly(this.#parts[2]);
  }

  get patch() {
    return exactly(this.#parts[3]);
  }

  get preRelease() {
    const [version] = this.#text.split('+', 1);
    return identifiersBehind(version, '-');
  }

  get build() {
    return identifiersBehind(this.#text, '+');
  }

  get sortKey() {
    const code = wasm.key(write(this.#text));
    if (code === NO_MEMORY) throw outOfMemory();
    return text();
  }

  compare(other) {
    const order = other instanceof Version ? this.#orderByNumbers(other) : undefined;
    return order ?? compareTexts(this.#text, versionText(other, 'other'));
  }

  /** The order by the three numbers; undefined where they are the same and one is of a pre-release, or where one isn't exact. */
  #orderByNumbers(other) {
    const [numbers, others] = [this.#comparable, other.#comparable];
    for (let i = 0; i < numbers.length; i++) {
      const difference = numbers[i] - others[i];
      if (difference !== 0) return Number.isNaN(difference) ? undefined : Math.sign(difference);
    }
    return 0;
  }

  /** The three numbers, and 0 for a release; NaN in place of what can't be compared so. */
  get #comparable() {
    return (this.#numbers ??= comparableOf(this.#text, this.#parts));
  }

  toString() {
    return this.#text;
  }

  toJSON() {
    return this.#text;
  }

  get [VERSION_TEXT]() {
    return this.#text;
  }

  [INSPECT]() {
    return `Version <${this.#text}>`;
  }
}

/** The version as the library displays it. */
function displayed(version) {
  const code = wasm.version(write(version));
  if (code === NO_MEMORY) throw outOfMemory();
  if (code !== YES) throw invalid(VERSION, 0, version);
  return text();
}

/** The identifiers behind the first such character. */
function identifiersBehind(text, character) {
  const at = text.indexOf(character);
  return at < 0 ? [] : text.slice(at + 1).split('.');
}

function comparableOf(text, [numbers, ...digits]) {
  const exact = digits.map((number) => (Number.isSafeInteger(Number(number)) ? Number(number) : NaN));
  return [...exact, text[numbers.length] === '-' ? NaN : 0];
}

function exactly(number) {
  const value = Number(number);
  if (!Number.isSafeInteger(value)) throw new RangeError(`${number} is above Number.MAX_SAFE_INTEGER; toString() has it`);
  return value;
}

/** The order of two versions by precedence: -1, 0 or 1. */
export function compareTexts(one, other) {
  const code = askCompare(one, other);
  if (code >= 0) return code - 1;
  if (code === NO_MEMORY) throw outOfMemory();
  throw invalid(VERSION, 0, wasm.version(write(one)) === YES ? other : one);
}
