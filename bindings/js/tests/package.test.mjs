// What the package is made of: it imports nothing but itself, so that it runs in every host, and both kinds of modules have one API.

import assert from 'node:assert/strict';
import { execFileSync } from 'node:child_process';
import { existsSync, readFileSync, readdirSync, statSync } from 'node:fs';
import { join } from 'node:path';
import { createRequire } from 'node:module';
import { test } from 'node:test';
import * as compat from '../out/package/compat.js';
import { expand } from '../out/package/expand.js';
import * as index from '../out/package/index.js';
import { timesOfImports } from './imports.mjs';

const require = createRequire(import.meta.url);
const folder = new URL('../out/package/', import.meta.url);
const read = (name) => readFileSync(new URL(name, folder), 'utf8');
const withoutComments = (source) => source.replace(/\/\*[^]*?\*\/|\/\/.*/g, '');
const folders = ['', 'compat', 'compat/classes', 'compat/functions', 'compat/ranges'];
const names = folders.flatMap((it) => readdirSync(new URL(it, folder)).map((name) => join(it, name)))
  .filter((name) => /\.c?js$/.test(name));

for (const name of names) {
  test(`${name} imports nothing of Node`, () => {
    const source = withoutComments(read(name));
    for (const [, module] of source.matchAll(/(?:from|require\(|import\()\s*'([^']*)'/g)) assert.match(module, /^\.\.?\//);
    assert.doesNotMatch(source, /\b(process|Buffer|global|__dirname|__filename)\b|node:/);
  });
}

test('the module is semver.wasm, is there once, and imports nothing', () => {
  const module = readFileSync(new URL('../out/semver.wasm', import.meta.url));
  const { base64, size } = globalThis[Symbol.for('deno-semver.wasm')];
  assert.ok(module.equals(expand(Buffer.from(base64, 'base64'), size)));
  assert.deepEqual(WebAssembly.Module.imports(new WebAssembly.Module(module)), []);
  const files = readdirSync(folder, { withFileTypes: true, recursive: true }).filter((it) => it.isFile());
  const sizes = files.map(({ path, name }) => statSync(join(path, name)).size);
  assert.equal(sizes.filter((it) => it > 100_000).length, 1);
  const unpacked = sizes.reduce((sum, it) => sum + it);
  assert.ok(unpacked <= 700_000, `${unpacked} bytes`);
});

test('a block of LZ4 is expanded', () => {
  const block = [0x10, 97, 1, 0, 0xff, 0, ...Buffer.from('bcdefghijklmnop'), 15, 0, 0, 0x30, 120, 121, 122];
  assert.equal(String(Buffer.from(expand(block, 42))), 'aaaaabcdefghijklmnopbcdefghijklmnopbcdexyz');
});

for (const [name, modules] of [['index', index], ['compat', compat]]) {
  test(`${name} has the same names as CommonJS, and types for each`, () => {
    assert.deepEqual(Object.keys(require(`../out/package/${name}.cjs`)).sort(), Object.keys(modules).sort());
    const types = read(`${name}.d.ts`);
    for (const exported of Object.keys(modules)) {
      const declared = new RegExp(`export (function|class|const|default) ${exported === 'default' ? 'all' : exported}\\b`);
      assert.match(types, declared, exported);
    }
  });
}

test('each exported declaration has a comment', () => {
  for (const name of ['index', 'compat']) {
    const lines = read(`${name}.d.ts`).split('\n');
    const bare = lines.filter((line, at) => /^export |^ {2}(readonly |get |[a-z]+[(:?])/.test(line) && !/^export (default|\{)/.test(line)
      && !/\*\/$/.test(lines[at - 1]) && !/^ {2}readonly (start|end|expected|error)\?|^ {2}readonly expected:/.test(line));
    assert.deepEqual(bare, [], name);
  }
});

test('an import compiles nothing, which the first call does', () => {
  const source = 'WebAssembly.Module = undefined; await import(process.argv[1])';
  for (const name of ['index.js', 'compat.js']) {
    execFileSync(process.execPath, ['--input-type=module', '-e', source, new URL(name, folder).href]);
  }
});

// On a busy machine a time may be long by chance: more rounds make the shortest ones shorter.
test("an import takes at most twice the time of node-semver's", () => {
  const installed = (process.env.NODE_SEMVERS ?? '').split(':').filter((it) => it && existsSync(it));
  const imported = [new URL('index.js', folder).href, ...installed.map((it) => require.resolve(it))];
  let shortest = imported.map(() => Infinity);
  const isFast = () => shortest.slice(1).every((theirs) => shortest[0] <= 2 * theirs);
  for (let round = 0; round < 3 || (round < 20 && !isFast()); round++) {
    const times = timesOfImports(imported);
    shortest = shortest.map((time, index) => Math.min(time, times[index]));
  }
  assert.ok(isFast(), `${shortest} ms`);
});
