// The version that a string contains.

import { optionsOf } from './options.js';
import { SemVer } from './semver.js';
import { parse } from './versions.js';

const NUMBERS = String.raw`(\d{1,16})(?:\.(\d{1,16}))?(?:\.(\d{1,16}))?`;
const IDENTIFIER = String.raw`(?:0|[1-9]\d*|\d*[a-zA-Z-][a-zA-Z\d-]*)`;
const QUALIFIER = String.raw`(-${IDENTIFIER}(?:\.${IDENTIFIER})*)?(\+[a-zA-Z\d-]+(?:\.[a-zA-Z\d-]+)*)?`;
// No digit stands before or behind a run. The lookahead takes no text, so that runs within others are found.
const RUN = new RegExp(String.raw`(?<!\d)(?=(${NUMBERS})(?!\d))`);
const QUALIFIED_RUN = new RegExp(String.raw`(?<!\d)(?=(${NUMBERS}${QUALIFIER})(?!\d))`);
const RUNS = new RegExp(RUN, 'g');
const QUALIFIED_RUNS = new RegExp(QUALIFIED_RUN, 'g');

/** The last of these runs of one to three numbers; of neighbours that end together, the longest. A run ends behind its next character. */
function lastRunIn(text, runs) {
  let found = null;
  let end;
  for (const run of text.matchAll(runs)) {
    const endsAt = Math.min(run.index + run[1].length + 1, text.length);
    if (endsAt !== end) [found, end] = [run, endsAt];
    if (end === text.length) break;
  }
  return found;
}

/** The first run of one to three numbers, or the last one. */
function runIn(text, { rtl, includePrerelease }) {
  if (rtl) return lastRunIn(text, includePrerelease ? QUALIFIED_RUNS : RUNS);
  return (includePrerelease ? QUALIFIED_RUN : RUN).exec(text);
}

export function coerce(version, options) {
  if (version instanceof SemVer) return version;
  const text = typeof version === 'number' ? String(version) : version;
  const run = typeof text === 'string' ? runIn(text, optionsOf(options)) : null;
  if (run === null) return null;
  const [, , major, minor = '0', patch = '0', pre = '', build = ''] = run;
  return parse(`${major}.${minor}.${patch}${pre}${build}`, options);
}
