import { matches } from 'deno-semver';
import { satisfies } from 'deno-semver/compat';
import { SemVer } from 'deno-semver/compat/classes';
import Range = require('deno-semver/compat/classes/range.js');
import satisfiesThere = require('deno-semver/compat/functions/satisfies');
import minVersion = require('deno-semver/compat/ranges/min-version');

const both: boolean = matches('^1.2', '1.3.0') && satisfies('1.3.0', '^1.2') && satisfiesThere('1.3.0', new Range('^1.2'));
const lowest: SemVer | null = minVersion('^1.2');
export { both, lowest };
