// node-semver's grammars of versions and of the parts of ranges: the strict one, and the one of `loose`.

import { isPlain } from '../plain.js';

export const LONGEST_VERSION = 256;
const LONGEST_BUILD = LONGEST_VERSION - '0.0.0+'.length;
const WORD = `[A-Za-z\\d-]{1,${LONGEST_BUILD}}`;
const WORDS = `${WORD}(?:\\.${WORD})*`;
const BUILD = new RegExp(`^${WORDS}$`);

function grammarOf(isLoose) {
  const number = isLoose ? '\\d+' : '(?:0|[1-9]\\d*)';
  const part = `(?:${number}|[xX*])`;
  const identifier = `(?:${number}|\\d*[A-Za-z-][A-Za-z\\d-]*)`;
  const pre = `(?:-${isLoose ? '?' : ''}(?<pre>${identifier}(?:\\.${identifier})*))?`;
  const build = `(?:\\+(?<build>${WORDS}))?`;
  const numbers = `(?<major>${number})\\.(?<minor>${number})\\.(?<patch>${number})`;
  const partial = `[v=\\s]*(?<major>${part})(?:\\.(?<minor>${part})(?:\\.(?<patch>${part})${pre}${build})?)?`;
  return {
    version: new RegExp(withoutNames(`^${isLoose ? '[v=\\s]*' : 'v?'}${numbers}${pre}${build}$`)),
    partial: new RegExp(`^${partial}$`),
    comparator: new RegExp(`^(?<operator>\\^|~>?|[<>]?=?)${partial}$`),
  };
}

/** The expression with groups that have no names, which are found faster. */
function withoutNames(expression) {
  return expression.replace(/\?<\w+>/g, '');
}

const STRICT = grammarOf(false);
const LOOSE = grammarOf(true);

/**
 * Whether the text is a version that the library reads as node-semver does, whatever the options: one as most are, not too long, and not a
 * pre-release of 0.0.0.
 */
export function isUsual(text) {
  return typeof text === 'string' && text.length <= LONGEST_VERSION && isPlain(text) && !text.startsWith('0.0.0-');
}

/** Whether the text is a build, without its `+`. */
export function isBuild(text) {
  return BUILD.test(text);
}

/** The regular expressions that these options ask for. */
export function grammarFor(options) {
  return options.loose ? LOOSE : STRICT;
}

/** The text without whitespace around it, and with single spaces within it. */
export function withSingleSpaces(text) {
  return text.trim().replace(/\s+/g, ' ');
}
