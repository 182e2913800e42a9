// Lists of versions as texts with a line each.

import { INVALID_VERSION, NO, YES, ask2, codes, places, text, wasm, write } from './calls.js';
import { errorOf, kindOf, versionText } from './errors.js';

/** Throws where the versions aren't an array. */
export function expectArray(versions) {
  if (!Array.isArray(versions)) throw new TypeError(`versions must be an array, not ${kindOf(versions)}`);
  return versions;
}

/** The texts of a list of versions, each a text or a `Version`; a hole isn't one. */
export function textsOf(versions) {
  return Array.from(expectArray(versions), (version, index) => versionText(version, `versions[${index}]`));
}

/** The texts as lines. A line break within a version is whitespace, as a space is. */
export function linesOf(texts) {
  const isOneLine = (text) => !text.includes('\n') && !text.includes('\r');
  const lines = texts.every(isOneLine) ? texts : texts.map((text) => text.replace(/[\r\n]/g, ' '));
  return lines.length ? `${lines.join('\n')}\n` : '';
}

/** The versions of the list that match. */
export function filterList(grammar, range, versions, pre) {
  const texts = textsOf(versions);
  const code = ask2(wasm.filter, grammar, range, linesOf(texts), pre);
  if (code !== YES) throw errorOf(code, grammar, [range], texts, 0, 'versions');
  const answers = codes();
  const place = answers.indexOf(INVALID_VERSION);
  if (place >= 0) throw errorOf(INVALID_VERSION, grammar, [range], texts, place, 'versions');
  return versions.filter((_, index) => answers[index] === YES);
}

/** The version of the list that `call`, the highest or the lowest, finds; undefined where none matches. */
export function findInList(call, grammar, range, versions, pre) {
  const texts = textsOf(versions);
  const code = ask2(call, grammar, range, linesOf(texts), pre);
  if (code === NO) return undefined;
  if (code === YES) return versions[wasm.place()];
  throw errorOf(code, grammar, [range], texts, invalidPlace(code), 'versions');
}

/** A short range that matches the same versions of the list. */
export function simplifyForList(grammar, range, versions, pre) {
  const texts = textsOf(versions);
  const code = ask2(wasm.simplify, grammar, range, linesOf(texts), pre);
  if (code === YES) return text();
  throw errorOf(code, grammar, [range], texts, invalidPlace(code), 'versions');
}

// `place` is that of an invalid version.
function invalidPlace(code) {
  return code === INVALID_VERSION ? wasm.place() : 0;
}

/** The versions by precedence, the lowest first; equal ones stay in their order. */
export function sortList(versions) {
  const texts = textsOf(versions);
  const code = wasm.sort(write(linesOf(texts)), texts.length);
  if (code !== YES) throw errorOf(code, 0, [], texts, invalidPlace(code), 'versions');
  return Array.from(places(), (place) => versions[place]);
}
