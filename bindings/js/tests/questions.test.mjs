// The table of questions that each binding answers alike: bindings/questions.jsonl.

import assert from 'node:assert/strict';
import { readFileSync } from 'node:fs';
import { test } from 'node:test';
import * as semver from '../out/package/index.js';

const { Range, Version } = semver;
const rows = readFileSync(new URL('../../questions.jsonl', import.meta.url), 'utf8').trim().split('\n').map((line) => JSON.parse(line));

/** The lines of a text, as the library has them. */
function linesOf(text) {
  return text === '' ? [] : (text.endsWith('\n') ? text.slice(0, -1) : text).split(/\r?\n/);
}

const isEncodable = (text) => !/\p{Surrogate}/u.test(text);
const yesIf = (is) => [is ? 'yes' : 'no'];
const textOr = (text) => (text === undefined ? ['no'] : ['yes', text]);
const placeOr = (list, item) => (item === undefined ? ['no'] : ['yes', String(list.indexOf(item))]);
const orderOf = (order) => [{ '-1': 'before', 0: 'same', 1: 'after' }[order]];

const BASES = { zero: 0, one: 1, nothing: false };

/** The JSON of the C API, from the parts that this package returns. */
function packageJson({ scope, name, range, canonical }) {
  return { name, normal: canonical, requirement: range, scope };
}

function sortedJson(parts) {
  return JSON.stringify(Object.fromEntries(Object.entries(parts).sort(([a], [b]) => (a < b ? -1 : 1))));
}

const referenceJson = (parts) => sortedJson({ ...parts, package: packageJson(parts.package) });
const nameJson = ({ name, scope, version }) => ({ name, scope, version });

/** An error of a text in ASCII, whose indexes are those of its bytes. */
const errorJson = ({ message, start, end, expected }) => ({ end, expected, message, start });

const comparatorJson = ({ text, start, end }) => ({ end, start, text });

function alternativeJson({ text, error, comparators, start, end, lowest, preReleases }) {
  if (error) return { error: errorJson(error), text };
  return { comparators: comparators.map(comparatorJson), end, lowest, 'pre-releases': preReleases, start, text };
}

/** How the calls that name a grammar answer. */
const WITH_GRAMMAR = {
  fits: (o, range, version) => yesIf(semver.matches(range, version, o)),
  above: (o, range, version) => yesIf(semver.isAbove(version, range, o)),
  below: (o, range, version) => yesIf(semver.isBelow(version, range, o)),
  filter: (o, range, text) => {
    const lines = linesOf(text);
    const invalid = lines.map((line) => isEncodable(line) && thrown(() => new Version(line)) !== undefined);
    const matching = new Set(semver.filter(range, lines.filter((_, at) => !invalid[at]), o));
    return ['yes', ...lines.map((line, at) => (invalid[at] ? 'invalid version' : yesIf(matching.has(line))[0]))];
  },
  best: (o, range, text) => placeOr(linesOf(text), semver.best(range, linesOf(text), o)),
  lowest: (o, range, text) => placeOr(linesOf(text), semver.lowest(range, linesOf(text), o)),
  simplify: (o, range, text) => ['yes', semver.simplify(range, linesOf(text), o)],
  list_best: (o, range, text) => listBest(o, range, text, 'best'),
  list_lowest: (o, range, text) => listBest(o, range, text, 'lowest'),
  intersects: (o, one, other) => yesIf(semver.intersects(one, other, o)),
  within: (o, one, other) => {
    const version = semver.counterexample(one, other, o);
    return version === undefined ? ['yes'] : ['no', version];
  },
  equivalent: (o, one, other) => yesIf(semver.isEquivalent(one, other, o)),
  common: (o, one, other) => textOr(semver.common([one, other], o)),
  common_all: (o, text) => textOr(semver.common(linesOf(text), o)),
  min_version: (o, range) => textOr(semver.minVersion(range, o)),
  normal: (o, range) => ['yes', semver.canonical(range, o)],
  explain: (o, range) => {
    const { alternatives, canonical, tag } = semver.explain(range, o);
    return tag === undefined ? ['yes', sortedJson({ alternatives: alternatives.map(alternativeJson), normal: canonical })] : ['tag'];
  },
  errors: (o, range) => {
    const error = thrown(() => semver.explain(range, o));
    if (error && error.start === undefined) throw error;
    const errors = error ? [error] : semver.explain(range, o).alternatives.flatMap((it) => it.error ?? []);
    return ['yes', JSON.stringify(errors.map(errorJson))];
  },
  package_errors: (o, text) => placeOf(() => semver.parsePackage(text, o)),
  equal: (o, one, other) => yesIf(new Range(one, o).equals(new Range(other, o))),
  is_tag: (o, range) => yesIf(new Range(range, o).tag !== undefined),
  scans: (o, range) => ['yes', ...new Range(range, o).scans().flatMap(({ isPre, low, high }) => [isPre ? 'pre' : 'release', low, high])],
  package: (o, text) => {
    const parts = packageJson(semver.parsePackage(text, o));
    const name = parts.scope === null ? parts.name : `@${parts.scope}/${parts.name}`;
    return ['yes', sortedJson(parts), name, parts.requirement, parts.normal];
  },
  dependency: (o, text) => {
    const { kind, canonical, package: its } = semver.parseDependency(text, o);
    return ['yes', sortedJson({ kind, normal: canonical, package: packageJson(its) })];
  },
};

/** The error that a call throws, if it has a place. */
function placeOf(call) {
  const error = thrown(call);
  return ['yes', JSON.stringify(error?.start === undefined ? [] : [errorJson(error)])];
}

/** The place of what a list finds. */
function listBest(o, range, text, method) {
  const lines = linesOf(text);
  return placeOr(lines, new semver.VersionList(lines)[method](new Range(range, o)));
}

/** The places of sorted versions. */
function sortedPlaces(lines, sorted) {
  const versions = lines.map((line, at) => ({ line, at }));
  return ['yes', ...sorted.map((line) => String(take(versions, line)))];
}

const CALLS = {
  sort: (text) => sortedPlaces(linesOf(text), semver.sort(linesOf(text))),
  list_sort: (text) => sortedPlaces(linesOf(text), new semver.VersionList(linesOf(text)).sort()),
  increment: (type, base, version, identifier) => ['yes', semver.increment(version, type, { identifier, base: BASES[base] ?? base })],
  coerce: (end, parts, text) =>
    textOr(semver.coerce(text, { rtl: { first: false, last: true }[end] ?? end, preReleases: parts === 'all' })),
  difference: (one, other) => [semver.difference(one, other) ?? 'none'],
  compare: (one, other) => orderOf(new Version(one).compare(other)),
  version: (text) => ['yes', String(new Version(text))],
  export_name: (path) => ['yes', semver.exportName(path)],
  key: (text) => ['yes', new Version(text).sortKey],
  version_error: (text) => {
    const error = thrown(() => new Version(text));
    if (error && error.start === undefined) throw error;
    return ['yes', String(error ? error.start : text.length)];
  },
  may_be_tag: (text) => yesIf(semver.mayBeTag(text)),
  reference: (text) => ['yes', referenceJson(semver.parseReference(text))],
  reference_errors: (text) => placeOf(() => semver.parseReference(text)),
  name_with_version: (text) => ['yes', sortedJson(nameJson(semver.parseNameWithVersion(text)))],
  version_reference: (text) => {
    const parts = semver.parseVersionReference(text);
    return ['yes', sortedJson({ ...parts, package: nameJson(parts.package) })];
  },
  version_parts: (text) => {
    const { build, major, minor, patch, preRelease } = new Version(text);
    return ['yes', JSON.stringify({ build, major: String(major), minor: String(minor), patch: String(patch), pre: preRelease })];
  },
};

/** The place of the first version with this text, which is taken from the list. */
function take(versions, line) {
  return versions.splice(versions.findIndex((it) => it.line === line), 1)[0].at;
}

function thrown(call) {
  try {
    call();
    return undefined;
  } catch (error) {
    return error;
  }
}

/** What the table has for this error. */
function problem(error, texts) {
  if (error.name === 'TagError') return ['tag'];
  if (/lone surrogate|valid UTF-8/.test(error.message)) return ['invalid UTF-8'];
  if (error.name === 'IncrementError') return ['no increment', error.message];
  if (error.name === 'TypeError') return ['unknown grammar'];
  const name = error.name === 'VersionSyntaxError' ? 'invalid version' : 'invalid range';
  const given = texts.length === 4 ? [texts[2]] : texts; // of `increment`, whose version stands behind a kind and a base
  return [name, error.message, String(error.index ?? given.indexOf(error.text))];
}

/** Whether the package answers in another way. */
function isOther(name, [first, second]) {
  if (name === 'may_be_tag') return !isEncodable(first); // no
  if (name === 'version_parts') return /\d{16}/.test(first); // a RangeError: a number of JavaScript doesn't hold it
  if (name === 'package_errors') return !thrown(() => semver.parsePackage(second, { grammar: first })); // alternatives that are left out
  return name === 'errors' && thrown(() => semver.minVersion(second, { grammar: first }))?.name === 'TagError'; // a tag isn't an error
}

let count = 0;
for (const [[name, ...given], expected] of rows) {
  const call = WITH_GRAMMAR[name] ?? CALLS[name];
  if (!call || isOther(name, given)) continue;
  count++;
  test(JSON.stringify([name, ...given]), () => {
    const { texts, asked } = argumentsOf(name, given);
    let answer;
    try {
      answer = call(...asked);
    } catch (error) {
      answer = problem(error, name === 'common_all' ? linesOf(texts[0]) : texts);
    }
    const isShort = answer[0] === 'unknown grammar' || answer[0] === 'invalid UTF-8';
    if (isShort) assert.equal(answer[0], expected[0]);
    else assert.deepEqual(answer.slice(0, expected.length), expected);
  });
}

/** The texts of a question, and the arguments of its call. */
function argumentsOf(name, given) {
  if (!WITH_GRAMMAR[name]) return { texts: given, asked: given };
  const [grammar, ...rest] = given;
  const hasPreReleases = rest[0] === 'restricted' || rest[0] === 'admitted';
  const texts = hasPreReleases ? rest.slice(1) : rest;
  const options = { grammar, ...(hasPreReleases && { preReleases: rest[0] === 'admitted' }) };
  return { texts, asked: [options, ...texts] };
}

test('the table has such questions', () => assert.ok(count > 200, `${count} questions`));
