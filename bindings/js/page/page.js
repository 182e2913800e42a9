// The page: what is typed is explained at once.

import {
  Version, VersionSyntaxError, canonical, common, compare, counterexample, diagnose, explain, isEquivalent, matches, minVersion, intersects,
} from 'deno-semver';
import { numberLine } from './number-line.js';

const at = (id) => document.getElementById(id);

function make(name, className, ...children) {
  const made = document.createElement(name);
  made.className = className;
  made.append(...children);
  return made;
}

// ---- what a range means, in words

function boundsText({ start, end, lowest }) {
  if (start === null && end === null) return 'any version';
  if (lowest && start?.version === end?.version) return `only ${lowest}`;
  const from = start && `>${start.inclusive ? '=' : ''}${start.version}`;
  const to = end && `<${end.inclusive ? '=' : ''}${end.version}`;
  return [from, to].filter(Boolean).join(' ');
}

function preReleasesText({ preReleases }) {
  if (preReleases === 'all') return 'all between the bounds';
  return preReleases.length ? `of ${preReleases.join(' and ')}` : 'none';
}

/** Whether a version is on the right side of a bound; `side` is -1 for a lower bound and 1 for an upper one. */
function isInside(version, bound, side) {
  const order = bound === null ? -side : compare(version, bound.version);
  return order === -side || (order === 0 && bound.inclusive);
}

/** Why an alternative doesn't match a version. */
function whyNot(version, { start, end }) {
  if (!isInside(version, start, -1)) return `not ${boundsText({ start, end: null })}`;
  if (!isInside(version, end, 1)) return `not ${boundsText({ start: null, end })}`;
  return `a pre-release, and no bound is one of ${version.split('-', 1)[0]}`;
}

/** Whether the range matches the version, and by which alternative, or why not. */
function matchText(range, version, { tag, alternatives }, options) {
  if (tag !== undefined) return 'unknown: a registry says which version has the tag';
  const valid = alternatives.filter(({ error }) => !error);
  const named = (it) => it.text || '*';
  if (matches(range, version, options)) return `yes: ${named(valid.find(({ text }) => matches(text, version, options)))}`;
  return `no: ${valid.map((it) => `${named(it)}: ${whyNot(version, it)}`).join('; ')}`;
}

function describe(rows) {
  return rows.map((row) => `${row.text || '*'}: ${row.error ? 'left out' : boundsText(row)}`).join('; ');
}

// ---- parts of the page

function showPairs(list, pairs) {
  const items = pairs.flatMap(([term, value]) => [make('dt', '', term), make('dd', '', make('code', '', value))]);
  list.replaceChildren(...items);
}

/** How many characters stand before a place in a text, which counts UTF-16 code units. */
function charactersBefore(text, start) {
  return [...text.slice(0, start)].length;
}

/** The text with a caret below the place of its mistake. */
function caretLines(text, start) {
  return make('pre', '', `${text}\n${' '.repeat(charactersBefore(text, start))}`, make('span', 'caret', '^'));
}

/** Where the lines are longer than the page is wide, scrolls them so far that the caret is seen. */
function scrollToCaret(lines) {
  lines.scrollLeft = lines.querySelector('.caret').offsetLeft - lines.clientWidth / 2;
}

function expectedText(expected) {
  return expected.length ? ` Expected ${expected.map((it) => (/^\w+$/.test(it) ? it : `"${it}"`)).join(', ')}.` : '';
}

function problemParts(text, { message, start, expected }) {
  const said = `${message}${expectedText(expected)}`;
  if (start === undefined) return [make('div', '', said)];
  return [caretLines(text, start), make('div', '', `Character ${charactersBefore(text, start) + 1}: ${said}`)];
}

/** Shows what is wrong with a range below its field. */
function showProblem(field, problems) {
  const below = at(`${field.id}-problem`);
  below.replaceChildren(...problems.flatMap((problem) => problemParts(field.value, problem)));
  below.querySelectorAll('pre').forEach(scrollToCaret);
  field.setAttribute('aria-invalid', String(problems.length > 0));
}

function mistakenRow(text, error) {
  const why = make('td', '', `left out: ${error.message}`);
  why.colSpan = 3;
  return make('tr', 'left-out', make('td', '', text), why);
}

function alternativeRow({ text, error, ...meaning }) {
  if (error) return mistakenRow(text, error);
  const cells = [text || '*', boundsText(meaning), preReleasesText(meaning), meaning.lowest ?? 'no version matches'];
  return make('tr', '', ...cells.map((cell) => make('td', '', cell)));
}

// ---- the whole

/** What the field's range means, or undefined where it's empty or invalid, with its mistakes shown. */
function explained(field, options) {
  const { grammar } = options;
  const problem = diagnose(field.value, { grammar });
  if (problem) {
    showProblem(field, [problem]);
    return undefined;
  }
  const meaning = explain(field.value, options);
  const errors = (meaning.alternatives ?? []).filter(({ error }) => error).map(({ error }) => error);
  showProblem(field, errors);
  return meaning;
}

/** The version of the field, as displayed; undefined where it's empty or invalid, with its mistake shown. */
function versionOf(field) {
  showProblem(field, []);
  if (field.value === '') return undefined;
  try {
    return String(new Version(field.value));
  } catch (error) {
    if (!(error instanceof VersionSyntaxError)) throw error;
    showProblem(field, [error]);
    return undefined;
  }
}

function summaryOf(range, version, meaning, options) {
  const match = version === undefined ? [] : [[`Matches ${version}`, matchText(range, version, meaning, options)]];
  if (meaning.tag !== undefined) return [...match, ['Tag', meaning.tag]];
  return [
    ...match,
    ['Canonical form', meaning.canonical],
    ['Lowest version', minVersion(range, options) ?? 'no version matches'],
  ];
}

function comparisonOf(one, other, options) {
  const { grammar } = options;
  const outside = (inner, outer) => {
    const version = counterexample(inner, outer, options);
    return version === undefined ? 'yes' : `no: ${version}`;
  };
  return [
    ['Canonical form', canonical(other, { grammar })],
    ['Lowest common version', common([one, other], options) ?? 'none'],
    ['Bounds overlap', intersects(one, other, { grammar }) ? 'yes' : 'no'],
    ['First within second', outside(one, other)],
    ['Second within first', outside(other, one)],
    ['Same versions', isEquivalent(one, other, options) ? 'yes' : 'no'],
  ];
}

function rowsOf(meaning, side) {
  return (meaning?.alternatives ?? []).map((alternative) => ({ ...alternative, side }));
}

function showMeaning(range, version, meaning, options) {
  showPairs(at('summary'), meaning ? summaryOf(range, version, meaning, options) : []);
  const rows = (meaning?.alternatives ?? []).map(alternativeRow);
  at('alternatives').replaceChildren(...rows);
  at('table').hidden = rows.length === 0;
}

function showComparison(one, other, meanings, options) {
  const canCompare = meanings.every((meaning) => meaning && meaning.tag === undefined);
  at('comparison').hidden = !canCompare;
  if (canCompare) showPairs(at('answers'), comparisonOf(one, other, options));
}

function show() {
  const [range, other] = [at('range'), at('other')];
  const options = { grammar: at('grammar').value, preReleases: at('pre-releases').checked };
  const meaning = explained(range, options);
  const second = other.value === '' ? undefined : explained(other, options);
  if (other.value === '') showProblem(other, []);
  showMeaning(range.value, versionOf(at('version')), meaning, options);
  showComparison(range.value, other.value, [meaning, second], options);
  const rows = [...rowsOf(meaning, 'first'), ...rowsOf(second, 'second')];
  at('line').hidden = rows.length === 0;
  at('line').replaceChildren(...(rows.length ? [numberLine(rows, describe(rows))] : []));
}

// ---- the address, whose fragment has what is typed, so that a link shows it

const FIELDS = ['range', 'version', 'other', 'grammar'];
const DEFAULTS = new Map(FIELDS.map((id) => [id, at(id).value]));

function readAddress() {
  const typed = new URLSearchParams(location.hash.slice(1));
  for (const [id, value] of DEFAULTS) at(id).value = typed.get(id) ?? value;
  if (at('grammar').value === '') at('grammar').value = DEFAULTS.get('grammar'); // the link names none of the list
  at('pre-releases').checked = typed.has('pre-releases');
  show();
}

function writeAddress() {
  const typed = new URLSearchParams(FIELDS.map((id) => [id, at(id).value]).filter(([id, value]) => value !== DEFAULTS.get(id)));
  if (at('pre-releases').checked) typed.set('pre-releases', 'all');
  history.replaceState(null, '', `#${typed}`);
}

for (const event of ['input', 'change']) {
  document.querySelector('form').addEventListener(event, () => {
    show();
    writeAddress();
  });
}
addEventListener('hashchange', readAddress);
readAddress();
