// Plain versions, which the package takes without asking the library.

import assert from 'node:assert/strict';
import { test } from 'node:test';
import { YES, text, wasm, write } from '../out/package/calls.js';
import { isPlain } from '../out/package/plain.js';
import { Random } from './random.mjs';

const NUMBERS = ['0', '1', '9', '10', '007', '999999999999999', '1000000000000000', '18446744073709551616', ''];
const IDENTIFIERS = ['0', '1', '01', '0a', 'a', '-', '--1', 'rc', 'RC-1', '18446744073709551616', '_', 'é', ''];

test('the library takes each plain version and displays it as it stands', () => {
  const random = new Random(1);
  const version = () => {
    const numbers = Array.from({ length: random.below(20) ? 3 : random.below(5) }, () => random.pick(NUMBERS)).join('.');
    return random.below(2) ? numbers : `${numbers}-${random.several(3, () => random.pick(IDENTIFIERS)).join('.')}`;
  };
  let plain = 0;
  for (let i = 0; i < 200_000; i++) {
    const source = version();
    if (!isPlain(source)) continue;
    plain++;
    assert.equal(wasm.version(write(source)), YES, source);
    assert.equal(text(), source);
  }
  assert.ok(plain > 20_000, `only ${plain} of them are plain`);
});

test('a plain version has numbers that JavaScript holds, no leading zero and no build', () => {
  for (const source of ['1.2.3', '0.0.0', '999999999999999.0.0', '1.2.3-0', '1.2.3-rc.1', '1.2.3--', '1.2.3-0a.18446744073709551616']) {
    assert.ok(isPlain(source), source);
  }
  for (const source of ['1.2', '1.2.3.4', '01.2.3', '1.2.03', '1.2.3-01', '1.2.3-', '1.2.3+b', 'v1.2.3', ' 1.2.3', '1.2.3\n', '9007199254740993.0.0']) {
    assert.ok(!isPlain(source), source);
  }
});
