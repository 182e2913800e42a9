// Reads an alternative of a range as node-semver does, into the texts of comparators: an operator and a whole version each.

import { grammarFor } from './grammar.js';

const NOTHING = '<0.0.0-0';
const SPACED_OPERATOR = /(\s*)([<>]?=?)\s*([v=\s]*[\dxX*])/g; // also without an operator, so that `v= 1` stays
const SPACED_TILDE = /~>?\s+/g;
const SPACED_CARET = /\^\s+/g;
const STAR = /[<>]?=?\s*\*/;

const isAny = (part) => part === undefined || /^[xX*]$/.test(part);
const raised = (number) => Number(number) + 1;

/** The texts of the comparators; some of them may be invalid, and `''` is any version. */
export function desugar(alternative, options) {
  const grammar = grammarFor(options);
  const zero = options.includePrerelease ? '-0' : '';
  const tokens = alternative.includes(' ') ? tokensOf(withoutHyphen(alternative, grammar, zero)) : [alternative];
  const comparators = tokens.map((token) => comparatorsOf(token, grammar, zero)).join(' ').split(/ +/);
  return comparators.map((comparator) => (comparator === `>=0.0.0${zero}` ? '' : comparator));
}

/** The comparators without whitespace. */
function tokensOf(alternative) {
  return alternative.replace(SPACED_OPERATOR, '$1$2$3').replace(SPACED_TILDE, '~').replace(SPACED_CARET, '^').split(' ');
}

/** `1.2 - 3.4` as comparators, and anything else as it was. */
function withoutHyphen(alternative, grammar, zero) {
  const ends = alternative.split(' - ');
  if (ends.length !== 2) return alternative;
  const [from, to] = ends.map((end) => grammar.partial.exec(end)?.groups);
  if (!from || !to) return alternative;
  return `${lowerEnd(ends[0], from, zero)} ${upperEnd(ends[1], to, zero)}`.trim();
}

function lowerEnd(end, { major, minor, patch, pre }, zero) {
  if (isAny(major)) return '';
  if (isAny(minor)) return `>=${major}.0.0${zero}`;
  if (isAny(patch)) return `>=${major}.${minor}.0${zero}`;
  return pre ? `>=${end}` : `>=${end}${zero}`;
}

function upperEnd(end, { major, minor, patch, pre }, zero) {
  if (isAny(major)) return '';
  if (isAny(minor)) return below(major);
  if (isAny(patch)) return below(major, minor);
  if (pre) return `<=${major}.${minor}.${patch}-${pre}`;
  return zero ? below(major, minor, patch) : `<=${end}`;
}

/** The comparator that ends below all versions that begin with the next number. */
function below(major, minor, patch) {
  if (minor === undefined) return `<${raised(major)}.0.0-0`;
  return patch === undefined ? `<${major}.${raised(minor)}.0-0` : `<${major}.${minor}.${raised(patch)}-0`;
}

/** What a comparator without whitespace means, with a space between comparators. */
function comparatorsOf(token, grammar, zero) {
  const parts = grammar.comparator.exec(token)?.groups;
  if (!parts) return token.replace(STAR, '');
  const { operator, major } = parts;
  if (isAny(major)) return operator === '<' || operator === '>' ? NOTHING : '';
  if (operator === '^') return caret(parts, zero);
  if (operator.startsWith('~')) return tilde(parts);
  return isAny(parts.minor) || isAny(parts.patch) ? wildcard(parts, zero) : token;
}

function caret({ major, minor, patch, pre }, zero) {
  const isFixed = major === '0'; // the caret keeps the first number that isn't 0
  if (isAny(minor)) return `>=${major}.0.0${zero} ${below(major)}`;
  if (isAny(patch)) return `>=${major}.${minor}.0${zero} ${isFixed ? below(major, minor) : below(major)}`;
  const start = `>=${major}.${minor}.${patch}${startOfPre(pre, isFixed ? zero : '')}`;
  if (!isFixed) return `${start} ${below(major)}`;
  return `${start} ${minor === '0' ? below(major, minor, patch) : below(major, minor)}`;
}

function tilde({ major, minor, patch, pre }) {
  if (isAny(minor)) return `>=${major}.0.0 ${below(major)}`;
  if (isAny(patch)) return `>=${major}.${minor}.0 ${below(major, minor)}`;
  return `>=${major}.${minor}.${patch}${startOfPre(pre, '')} ${below(major, minor)}`;
}

function startOfPre(pre, zero) {
  return pre ? `-${pre}` : zero;
}

function wildcard({ operator, major, minor }, zero) {
  const first = isAny(minor) ? `${major}.0.0` : `${major}.${minor}.0`;
  const next = isAny(minor) ? `${raised(major)}.0.0` : `${major}.${raised(minor)}.0`;
  switch (operator) {
    case '>':
      return `>=${next}${zero}`;
    case '>=':
      return `>=${first}${zero}`;
    case '<':
      return `<${first}-0`;
    case '<=':
      return `<${next}-0`;
    default:
      return `>=${first}${zero} <${next}-0`;
  }
}
