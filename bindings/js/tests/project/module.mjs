import assert from 'node:assert/strict';
import { Range, matches } from 'deno-semver';
import semver, { satisfies } from 'deno-semver/compat';
import { SemVer } from 'deno-semver/compat/classes';
import RangeThere from 'deno-semver/compat/classes/range.js';
import satisfiesThere from 'deno-semver/compat/functions/satisfies';
import minVersion from 'deno-semver/compat/ranges/min-version.js';

assert.equal(matches('^1.2', '1.3.0'), true);
assert.equal(new Range('>=1.2 <2').canonical, '^1.2.0');
assert.equal(satisfies('1.3.0', '^1.2') && semver.satisfies('1.3.0', '^1.2'), true);
assert.deepEqual([satisfiesThere, RangeThere, SemVer, minVersion], [satisfies, semver.Range, semver.SemVer, semver.minVersion]);
