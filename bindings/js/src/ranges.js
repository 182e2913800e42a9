// Ranges, and lists of versions, that the library holds between calls.

import {
  NO_MEMORY, YES, askHeld, codes, currentInstance, handle, isWellFormed, outOfMemory, places, text, wasm, write,
} from './calls.js';
import { INSPECT, RANGE_PARTS, errorOf, questionOf, versionText } from './errors.js';
import { parse } from './held.js';
import { expectArray, linesOf, textsOf } from './lists.js';

const collected = new FinalizationRegistry((held) => held.free());

/** A value that the library holds for an object, until `free()`, or until the object is collected. */
class Held {
  #make;
  #free;
  #address;
  #instance;

  /** `make` makes the value and returns its address: now, and again where the instance was replaced. */
  constructor(owner, make, free) {
    this.#make = make;
    this.#free = free;
    this.#address = make();
    this.#instance = currentInstance();
    collected.register(owner, this, this);
  }

  get address() {
    if (this.#address === 0) throw new TypeError('the value was freed');
    if (this.#instance !== currentInstance()) {
      this.#address = this.#make();
      this.#instance = currentInstance();
    }
    return this.#address;
  }

  /** Frees the value, unless it was freed, or its instance replaced. */
  free() {
    const address = this.#address;
    this.#address = 0;
    collected.unregister(this);
    if (address !== 0 && this.#instance === currentInstance()) this.#free(address);
  }
}

/** Parses a range, which the library then holds for its owner. */
function hold(owner, grammar, range) {
  return new Held(owner, () => parse(grammar, range), wasm.range_free);
}

// Asks of a range by its address, which is private to `Range`.
let askRange;

export class Range {
  #held;
  #text;
  #options;

  constructor(range, options) {
    const { texts, ...settings } = questionOf({ range }, options);
    [this.#text] = texts;
    this.#options = settings;
    this.#held = hold(this, settings.grammar, this.#text);
  }

  static {
    /** Calls with the address of a range, a text or a `Range`, and its options. A text, or with other options, is held until then. */
    askRange = (range, name, options, call) => {
      if (range instanceof Range && options === undefined) return call(range.#held.address, range.#options, range.#text);
      const { texts: [text], name: grammar, pre } = questionOf({ [name]: range }, options);
      const made = new Range(text, { grammar, preReleases: pre === 1 });
      try {
        return call(made.#held.address, made.#options, text);
      } finally {
        made.free();
      }
    };
  }

  get text() {
    return this.#text;
  }

  get canonical() {
    if (wasm.range_normal(this.#held.address) !== YES) throw outOfMemory();
    return text();
  }

  get tag() {
    return wasm.range_is_tag(this.#held.address) === YES ? this.canonical : undefined;
  }

  matches(version) {
    const tested = versionText(version, 'version');
    const code = askHeld(this.#held.address, tested, this.#options.pre);
    if (code >= 0) return code === YES;
    throw errorOf(code, this.#options.grammar, [this.#text], [tested]);
  }

  /** Asks of this range and another one, a text of the same grammar or a `Range`. */
  #askBoth(call, other) {
    const options = typeof other === 'string' ? this.#given : undefined;
    return askRange(other, 'other', options, (address) => call(this.#held.address, address) === YES);
  }

  intersects(other) {
    return this.#askBoth(wasm.range_intersects, other);
  }

  equals(other) {
    return other === this || this.#askBoth(wasm.range_equal, other);
  }

  get #given() {
    return { grammar: this.#options.name, preReleases: this.#options.pre === 1 };
  }

  scans() {
    const code = wasm.range_scans(this.#held.address, this.#options.pre);
    if (code === NO_MEMORY) throw outOfMemory();
    if (code !== YES) throw errorOf(code, this.#options.grammar, [this.#text]);
    return text().split('\n').slice(0, -1).map(scanOf);
  }

  toString() {
    return this.#text;
  }

  toJSON() {
    return this.#text;
  }

  get [RANGE_PARTS]() {
    return { text: this.#text, options: this.#given };
  }

  [INSPECT]() {
    return `Range <${this.#text}>`;
  }

  free() {
    this.#held.free();
  }
}

/** The scan of a line. */
function scanOf(line) {
  const [code, low, high] = line.split(' ');
  return { isPre: Number(code) === YES, low, high };
}

/** Parses versions, which the library then holds for their owner. */
function holdList(owner, versions) {
  const make = () => {
    const texts = textsOf(versions).map((text) => (isWellFormed(text) ? text : ''));
    if (wasm.list_read(write(linesOf(texts))) !== YES) throw outOfMemory();
    return handle();
  };
  return new Held(owner, make, wasm.list_free);
}

export class VersionList {
  #held;
  #versions;

  constructor(versions) {
    this.#versions = [...expectArray(versions)];
    this.#held = holdList(this, this.#versions);
  }

  get length() {
    return this.#versions.length;
  }

  /** Asks of the range: the code, YES or NO. */
  #ask(call, range, options) {
    return askRange(range, 'range', options, (address, { grammar, pre }, text) => {
      const code = call(this.#held.address, address, pre);
      if (code < 0) throw errorOf(code, grammar, [text]);
      return code;
    });
  }

  filter(range, options) {
    this.#ask(wasm.list_filter, range, options);
    const answers = codes();
    return this.#versions.filter((_, index) => answers[index] === YES);
  }

  best(range, options) {
    return this.#ask(wasm.list_best, range, options) === YES ? this.#versions[wasm.place()] : undefined;
  }

  lowest(range, options) {
    return this.#ask(wasm.list_lowest, range, options) === YES ? this.#versions[wasm.place()] : undefined;
  }

  sort() {
    if (wasm.list_sort(this.#held.address, this.length) !== YES) throw outOfMemory();
    return Array.from(places(), (place) => this.#versions[place]);
  }

  free() {
    this.#held.free();
  }
}

// `using` frees a value at the end of its block, where the host has it.
if (Symbol.dispose) {
  for (const kind of [Range, VersionList]) {
    Object.defineProperty(kind.prototype, Symbol.dispose, { value: kind.prototype.free, configurable: true, writable: true });
  }
}
