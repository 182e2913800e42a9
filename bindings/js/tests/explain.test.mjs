// What `explain` and `diagnose` say, beside what `ranges explain` prints: tools/programs/ranges.jsonl.

import assert from 'node:assert/strict';
import { readFileSync } from 'node:fs';
import { test } from 'node:test';
import { diagnose, explain } from '../out/package/index.js';

const table = readFileSync(new URL('../../../tools/programs/ranges.jsonl', import.meta.url), 'utf8');
const GRAMMARS = { npm: 'npm', normal: 'normalized', normalized: 'normalized', strict: 'strict' };
// Rows with these print something else, or explain what standard input has.
const OTHERS = /^(--json|--help|--color=always|-[a-z]?)$/;

/** The lines of a text with a caret below the first one: `[text, column of the caret]`. */
function caretsOf(printed) {
  const carets = [];
  const lines = printed.split('\n');
  lines.forEach((line, index) => {
    const caret = /^ {2}\| ( *)\^/.exec(lines[index + 1] ?? '');
    if (line.startsWith('  | ') && caret) carets.push([line.slice(4), caret[1].length]);
  });
  return carets;
}

/** The text and the options of a row that asks for one explanation, with long options. */
function asked([command, ...rest]) {
  if (command !== 'explain' || rest.some((it) => OTHERS.test(it))) return undefined;
  const option = rest.indexOf('--grammar');
  const grammar = GRAMMARS[option < 0 ? 'npm' : rest[option + 1]];
  const texts = rest.filter((it, index) => !it.startsWith('--') && (option < 0 || index !== option + 1));
  return grammar && texts.length === 1 ? [texts[0], { grammar, preReleases: rest.includes('--pre') }] : undefined;
}

function boundsText({ start, end }) {
  if (start === null && end === null) return 'any version';
  const parts = [['>', start], ['<', end]].filter(([, bound]) => bound);
  return parts.map(([sign, { inclusive, version }]) => `${sign}${inclusive ? '=' : ''}${version}`).join(' ');
}

function preReleasesText({ preReleases }) {
  if (preReleases === 'all') return 'pre-releases included';
  return preReleases.length ? `pre-releases of ${preReleases.join(' and ')}` : 'no pre-releases';
}

/** The text as `ranges` prints it, with control characters escaped. */
function shown(text) {
  return text.replace(/[^\t\P{Cc}]/gu, (c) => `\\u{${c.codePointAt(0).toString(16)}}`);
}

/** The line that `ranges explain` prints of an alternative. */
function lineOf({ text: raw, error, ...meaning }) {
  const text = shown(raw);
  const { start, end, lowest } = meaning;
  if (error) return `"${text}": left out: ${error.message}`;
  if (lowest === null) return `"${text}": no version matches`;
  if (start && start.version === end?.version) return `"${text}": only ${lowest}`;
  return `"${text}": ${boundsText(meaning)}, ${preReleasesText(meaning)}, lowest ${lowest}`;
}

function linesOf(text, options) {
  const { alternatives, canonical, tag } = explain(text, options);
  if (tag !== undefined) return [`"${shown(tag)}": a tag, a name that a registry gives a version`];
  return [...alternatives.map(lineOf), `canonical form: ${canonical}`];
}

function mistakesOf(text, { grammar }) {
  const whole = diagnose(text, { grammar });
  if (whole) return [whole];
  return (explain(text, { grammar }).alternatives ?? []).filter(({ error }) => error).map(({ error }) => error);
}

let [meanings, mistakes] = [0, 0];
for (const { arguments: given, stdout = '', stderr = '', tty } of table.trim().split('\n').map((line) => JSON.parse(line))) {
  const question = asked(given);
  if (!question || tty) continue; // a terminal gets colours
  const carets = caretsOf(`${stdout}\n${stderr}`);
  if (stdout) {
    meanings++;
    test(`what ${JSON.stringify(question)} means`, () => {
      const printed = stdout.trimEnd().split('\n').filter((line) => !/^( {2}[|=]|note:) /.test(line)); // notes are the program's own
      assert.deepEqual(linesOf(...question), printed);
    });
  }
  if (carets.length && carets.every(([shown]) => shown === question[0] && /^[ -~]*$/.test(shown))) {
    mistakes++;
    test(`the mistake in ${JSON.stringify(question)}`, () => {
      assert.deepEqual(mistakesOf(...question).map(({ start }) => start), carets.map(([, column]) => column));
    });
  }
}
test('the table has such rows', () => assert.ok(meanings > 40 && mistakes > 40, `${meanings} and ${mistakes} rows`));
