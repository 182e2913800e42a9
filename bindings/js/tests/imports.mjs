// How long an import takes, in fresh processes.

import { execFileSync } from 'node:child_process';

const TIMED = 'const start = performance.now(); await import(process.argv[1]); console.log(performance.now() - start)';

/** Milliseconds of importing each of these modules. */
export function timesOfImports(modules) {
  return modules.map((module) =>
    Number(execFileSync(process.execPath, ['--input-type=module', '-e', TIMED, module], { encoding: 'utf8' })));
}
