// The step from a version to another.

import { NO_MEMORY, YES, ask2, outOfMemory, wasm } from './calls.js';

/** The kinds of releases, by their numbers. */
const RELEASE_TYPES = ['major', 'minor', 'patch', 'premajor', 'preminor', 'prepatch', 'prerelease', 'release'];

/** No version follows the one that is given. */
export class IncrementError extends Error {
  constructor(message, version) {
    super(message);
    this.version = version;
  }

  get name() {
    return 'IncrementError';
  }
}

export function isReleaseType(type) {
  return RELEASE_TYPES.includes(type);
}

/** The code of the call that writes the next version; `base` is the first number of a pre-release, 0, 1 or false. */
export function askIncrement(version, type, identifier, base) {
  const code = ask2(wasm.increment, RELEASE_TYPES.indexOf(type), version, identifier, base === false ? 2 : base);
  if (code === NO_MEMORY) throw outOfMemory();
  return code;
}

/** Of which kind the step between two versions is; null if they have the same precedence, and undefined if one is invalid. */
export function askDifference(one, other) {
  const code = ask2((_, a, b) => wasm.difference(a, b), 0, one, other);
  if (code === NO_MEMORY) throw outOfMemory();
  return code < 0 ? undefined : (RELEASE_TYPES[code] ?? null);
}

/** The version that the call wrote behind this one, or the error that there is none. */
export function nextVersion(code, written, version) {
  if (code === YES) return written;
  throw new IncrementError(written, version);
}
