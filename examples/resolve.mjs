// Which version does each dependency get? Run it by node where the package is installed.

import { RangeSyntaxError, best } from 'deno-semver';

const versions = {
  router: ['2.0.4', '2.1.0', '2.3.1', '3.0.0'],
  log: ['1.2.0', '1.3.0-beta.2'],
};
const dependencies = [['router', '^2.1'], ['log', '^1.2 || 2'], ['router', '<2.0.4'], ['router', '^2..1']];

function resolve(name, range) {
  try {
    return best(range, versions[name]) ?? 'no version matches';
  } catch (error) {
    if (error instanceof RangeSyntaxError) return error.message;
    throw error;
  }
}

for (const [name, range] of dependencies) console.log(`${name} ${range}: ${resolve(name, range)}`);
