// The ranges that were asked last, which the library holds. A call with the text of a range thus parses it once, and makes no value that
// must be freed.

import { INVALID_RANGE, YES, ask2, askHeld, currentInstance, handle, text, wasm, write } from './calls.js';
import { RANGE, errorOf, invalidBy } from './errors.js';

const MOST_RANGES = 1000;
const LONGEST_RANGE = 256;
const caches = [new Map(), new Map(), new Map()];
let cachedIn = 0; // no instance yet: to make one takes most of the time of a first call, and an import makes none

/** Parses a range, and returns the address at which the library holds it. */
export function parse(grammar, range) {
  const code = wasm.range_read(grammar, write(range));
  if (code === YES) return handle();
  throw code === INVALID_RANGE ? invalidBy(text(), RANGE, grammar, range) : errorOf(code, grammar, [range]);
}

/** Makes room for one more. */
function forgetOldest(cache) {
  const [range, address] = cache.entries().next().value;
  cache.delete(range);
  wasm.range_free(address);
}

/** Forgets the addresses of an instance that was replaced. */
function forgetAll() {
  for (const cache of caches) cache.clear();
  cachedIn = currentInstance();
}

/** The address at which the library holds a short range. */
function addressOf(grammar, range) {
  if (cachedIn !== currentInstance()) forgetAll();
  const cache = caches[grammar];
  let address = cache.get(range);
  if (address !== undefined) return address;
  address = parse(grammar, range);
  if (cache.size >= MOST_RANGES) forgetOldest(cache);
  cache.set(range, address);
  return address;
}

/** The code of whether the version matches. */
export function askFits(grammar, range, version, pre) {
  if (range.length > LONGEST_RANGE) return ask2(wasm.fits, grammar, range, version, pre);
  return askHeld(addressOf(grammar, range), version, pre);
}
