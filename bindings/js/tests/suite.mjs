// Runs node-semver's own test suite over deno-semver/compat:
//
//     node suite.mjs SOURCE
//
// SOURCE is a folder of node-semver's sources, which have `test`; its packages have none. The tests get this package for the modules that
// they name, and what they use of `tap`. The status is 1 if an assertion fails.

import assert from 'node:assert/strict';
import { existsSync, readFileSync, readdirSync } from 'node:fs';
import Module, { createRequire } from 'node:module';
import { join, resolve } from 'node:path';
import { fileURLToPath } from 'node:url';

const source = resolve(process.argv[2]);
const ours = fileURLToPath(new URL('../out/package/', import.meta.url));
const require = createRequire(import.meta.url);
const { version } = JSON.parse(readFileSync(join(source, 'package.json')));

const FOLDERS = ['.', 'classes', 'functions', 'ranges', 'integration', 'internal'];

/** Tests of what this package hasn't, by their paths: node-semver's layout, and its modules of its own. */
const LEFT_OUT = /^(map|preload|internal[/](?!identifiers)[\w-]+)[.]js$/;

const failed = [];
let passed = 0;
let where = '';

function report(isRight, message) {
  if (isRight) passed++;
  else failed.push(`${where}: ${message}`);
}

function holds(check) {
  try {
    check();
    return true;
  } catch {
    return false;
  }
}

/** Whether a value has what the pattern has: a constructor is matched by its values, and an object by its fields. */
function isMatch(value, pattern) {
  if (typeof pattern === 'function') return Object(value) instanceof pattern;
  if (typeof pattern !== 'object' || pattern === null) return value === pattern;
  const names = pattern instanceof Error ? ['name', 'message'] : Object.keys(pattern);
  return names.every((name) => isMatch(value?.[name], pattern[name]));
}

function thrownBy(call) {
  try {
    call();
    return undefined;
  } catch (error) {
    return error;
  }
}

const tap = {
  ok: (value, message) => report(Boolean(value), message),
  notOk: (value, message) => report(!value, message),
  equal: (found, wanted, message = `${found} is ${wanted}`) => report(Object.is(found, wanted), `${message}, here ${found}`),
  not: (found, other, message) => report(!Object.is(found, other), message),
  same: (found, wanted, message = 'same') => report(holds(() => assert.deepEqual(found, wanted)), `${message}, here ${JSON.stringify(found)}`),
  match: (found, pattern, message = 'match') => report(isMatch(found, pattern), message),
  throws(call, ...expected) {
    const error = thrownBy(call);
    const pattern = expected.find((it) => typeof it === 'object' || typeof it === 'function') ?? {};
    report(error !== undefined && isMatch(error, pattern), `throws ${String(call)}: ${error?.message}`);
  },
  plan() {},
  end() {},
  test: (name, run) => run(tap),
};
tap.strictSame = tap.same;

/** The module for a name in a test. */
function resolved(name, from) {
  const path = resolve(from, name).replace(/\.js$/, '');
  if (path === source || path === join(source, 'internal/identifiers')) return join(ours, 'compat.cjs');
  const place = /[/](classes|functions|ranges)(?:[/]([\w-]+))?$/.exec(path);
  return place && !path.startsWith(join(source, 'test')) ? join(ours, 'compat', place[1], `${place[2] ?? 'index'}.cjs`) : undefined;
}

const find = Module._resolveFilename;
Module._resolveFilename = (name, parent, ...rest) => {
  if (name === 'tap') return 'tap';
  const isTest = parent?.path?.startsWith(join(source, 'test')) && name.startsWith('.');
  return (isTest && resolved(name, parent.path)) || find(name, parent, ...rest);
};
require.cache.tap = Object.assign(new Module('tap'), { exports: tap, loaded: true, filename: 'tap' });

for (const folder of FOLDERS.filter((it) => existsSync(join(source, 'test', it)))) {
  for (const file of readdirSync(join(source, 'test', folder)).filter((it) => it.endsWith('.js'))) {
    where = join(folder, file);
    if (LEFT_OUT.test(where)) continue;
    const error = thrownBy(() => require(join(source, 'test', where)));
    if (error) report(false, `the file throws ${error.stack}`);
  }
}

console.log(`node-semver ${version}: ${passed} of its assertions pass, and ${failed.length} fail`);
for (const it of failed) console.log(`  ${it}`);
process.exitCode = failed.length > 0 ? 1 : 0;
