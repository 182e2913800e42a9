// The examples of docs/NODE_SEMVER.md, here and in each node-semver that is installed.

import assert from 'node:assert/strict';
import { existsSync, readFileSync } from 'node:fs';
import { createRequire } from 'node:module';
import { test } from 'node:test';
import * as main from '../out/package/index.js';
import compat from '../out/package/compat.js';

const require = createRequire(import.meta.url);
const page = readFileSync(new URL('../../../docs/NODE_SEMVER.md', import.meta.url), 'utf8');
const ROW = /^\| `([^`]*\)[^`]*)` \| `([^`]*)` \| `([^`]*)` \| `([^`]*)` \|$/gm;
const rowsOf = (part) => [...part.replaceAll('\\|\\|', '||').matchAll(ROW)].map((row) => row.slice(1));
const [ofCompat, ofMain] = page.split("\n## Ranges as Deno's crate reads them\n").map(rowsOf);
const installed = (process.env.NODE_SEMVERS ?? '').split(':').filter((folder) => folder && existsSync(folder));

/** What the call returns, or this value where it throws. */
function orElse(value, call) {
  try {
    return call() ?? value;
  } catch {
    return value;
  }
}

/** The main entrance by node-semver's names, as the page says. */
const named = {
  satisfies: (version, range) => orElse(false, () => main.matches(range, version)),
  minVersion: (range) => orElse(null, () => main.minVersion(range)),
  subset: (one, other) => orElse(null, () => main.isSubset(one, other)),
  gtr: (version, range) => orElse(false, () => main.isAbove(version, range)),
  ltr: (version, range) => orElse(false, () => main.isBelow(version, range)),
  coerce: (text) => orElse(null, () => main.coerce(text)),
  validRange: (range) => orElse(null, () => main.canonical(range)),
  valid: (version) => orElse(null, () => String(new main.Version(version))),
};

function answer(library, call, options) {
  const withOptions = Object.fromEntries(Object.entries(library).map(([name, it]) => [name, bound(library, it, options)]));
  const result = new Function('library', `with (library) return ${call}`)(withOptions);
  return JSON.stringify(result?.version ?? result);
}

/** The function with options behind its arguments. */
function bound(library, it, options) {
  if (typeof it !== 'function' || options === undefined) return it;
  return (...asked) => it.call(library, ...asked, options);
}

test('the page has its examples', () => assert.ok(ofCompat.length > 8 && ofMain.length > 25, `${ofCompat.length} and ${ofMain.length} examples`));

for (const [library, rows] of [[compat, ofCompat], [named, ofMain]]) {
  for (const [call, ours] of rows) test(`${call} here`, () => assert.equal(answer(library, call), ours));
}

for (const folder of installed) {
  const semver = require(folder);
  const { version } = require(`${folder}/package.json`);
  for (const [call, , theirs, loose] of [...ofCompat, ...ofMain]) {
    if (version.startsWith('7.3.') && call.startsWith('diff')) continue; // it has no kinds of steps to a release
    test(`${call} in node-semver ${version}`, () => {
      assert.equal(answer(semver, call), theirs);
      assert.equal(answer(semver, call, { loose: true }), loose);
    });
  }
}

test('includePrerelease, as the page writes it', () => {
  for (const item of ['1.1.9', '1.2.0-0', '1.2.0', '1.5.0-rc.1', '2.0.0-0', '2.0.0-a', '2.0.0']) {
    const isMatch = main.matches('>=1.2.0-0 <2.0.0-0', item, { preReleases: true });
    assert.equal(isMatch, compat.satisfies(item, '^1.2', { includePrerelease: true }), item);
  }
});
