const assert = require('node:assert/strict');
const { matches } = require('deno-semver');
const semver = require('deno-semver/compat');

assert.equal(matches('^1.2', '1.3.0'), true);
assert.equal(semver.satisfies('1.3.0', '^1.2'), true);
assert.equal(require('deno-semver/compat/functions/satisfies'), semver.satisfies);
assert.equal(require('deno-semver/compat/ranges/min-version.js'), semver.minVersion);
assert.deepEqual(Object.keys(require('deno-semver/compat/classes')), ['Comparator', 'Range', 'SemVer']);
