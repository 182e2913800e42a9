// Types into the page in a browser, and reads it: node test.mjs
//
// It writes screenshots to out/page.

import assert from 'node:assert/strict';
import { readFileSync } from 'node:fs';
import { createServer } from 'node:http';
import { fileURLToPath } from 'node:url';
import { Browser } from './browser.mjs';

const folder = new URL('../out/page/', import.meta.url);
const page = new URL('index.html', folder).href;
const browser = await Browser.open(page);
const shot = (name) => browser.screenshot(fileURLToPath(new URL(name, folder)));

/** Replaces the text of a field as someone who types does. */
async function type(id, text) {
  await browser.evaluate(`document.getElementById('${id}').select(), document.getElementById('${id}').focus()`);
  if (text === '') await browser.evaluate(`document.execCommand('delete')`);
  else await browser.type(text);
}

/** Chooses an item of a list as someone who clicks on it does. */
const choose = (id, value) => browser.evaluate(`{
  const list = document.getElementById('${id}');
  list.value = '${value}';
  list.dispatchEvent(new Event('change', { bubbles: true }));
}`);

/** The terms and values of a list. */
const pairs = (id) => browser.evaluate(`Object.fromEntries([...document.querySelectorAll('#${id} dt')].map((it) =>
  [it.textContent, it.nextElementSibling.textContent]))`);
const cells = () => browser.evaluate(`[...document.querySelectorAll('#alternatives tr')].map((row) =>
  [...row.children].map((cell) => cell.textContent))`);
const text = (selector) => browser.evaluate(`document.querySelector('${selector}')?.textContent ?? ''`);
const count = (selector) => browser.evaluate(`document.querySelectorAll('${selector}').length`);
const attributes = (selector, name) => browser.evaluate(`[...document.querySelectorAll('${selector}')].map((it) =>
  it.getAttribute('${name}'))`);
const texts = (selector) => browser.evaluate(`[...document.querySelectorAll('${selector}')].map((it) => it.textContent)`);
/** Where elements begin and end, from left to right. */
const boxes = (selector) => browser.evaluate(`[...document.querySelectorAll('${selector}')].map((it) =>
  it.getBoundingClientRect()).map(({ left, right }) => [left, right])`);
const isHidden = (id) => browser.evaluate(`document.getElementById('${id}').hidden`);

/** Where the arrows point, from the place where each begins to its tip. */
async function arrows() {
  const places = (await attributes('svg path', 'd')).map((path) => path.match(/[\d.]+(?=,)/g).map(Number));
  return places.map(([back, tip]) => (tip < back ? 'left' : 'right'));
}

async function meaning() {
  assert.deepEqual(await pairs('summary'), { 'Canonical form': '^1.2.0 || 3', 'Lowest version': '1.2.0' });
  assert.deepEqual(await cells(), [
    ['>=1.2 <2', '>=1.2.0 <2.0.0', 'none', '1.2.0'],
    ['3.x', '>=3.0.0 <4.0.0', 'none', '3.0.0'],
  ]);
  const [matching, other] = ['currentColor', 'var(--background)'];
  assert.deepEqual(await attributes('svg circle', 'fill'), [matching, other, matching, other]);
  await type('range', '>1.2.3-beta.1 <=2.0.0 || <1 || 5.0.0');
  assert.deepEqual(await cells(), [
    ['>1.2.3-beta.1 <=2.0.0', '>1.2.3-beta.1 <=2.0.0', 'of 1.2.3', '1.2.3-beta.1.0'],
    ['<1', '>=0.0.0 <1.0.0', 'none', '0.0.0'],
    ['5.0.0', 'only 5.0.0', 'none', '5.0.0'],
  ]);
  assert.equal(await count('svg .pre-releases'), 1);
  assert.deepEqual(await texts('svg .axis-label'), ['0.0.0', '1.0.0', '1.2.3-beta.1', '1.2.3', '2.0.0', '5.0.0']);
  await type('range', '>=1.2.3-a <2.0.0-b');
  assert.equal((await cells())[0][2], 'of 1.2.3 and 2.0.0');
  await type('range', '*');
  assert.deepEqual(await arrows(), ['left', 'right']);
  await type('range', '>=1.2');
  assert.deepEqual(await arrows(), ['right']);
  await type('range', '>1.0.0 <1.0.1');
  assert.equal(await count('svg .nothing'), 1);
  assert.deepEqual(await pairs('summary'), { 'Canonical form': '>1.0.0 <1.0.1', 'Lowest version': 'no version matches' });
  await type('range', 'latest');
  assert.deepEqual(await pairs('summary'), { Tag: 'latest' });
  assert.equal(await count('svg'), 0);
}

async function mistakes() {
  await type('range', '^1.2.3.4');
  assert.match(await text('#range-problem'), /Character 7: Unexpected character/);
  assert.match(await text('#range-problem pre'), /^\^1\.2\.3\.4\n {6}\^$/);
  assert.equal(await browser.evaluate(`document.getElementById('range').getAttribute('aria-invalid')`), 'true');
  await type('range', '1 || foo bar');
  assert.match(await text('tr.left-out'), /foo bar.*left out/);
  assert.equal(await text('svg .left-out'), 'foo bar');
  assert.match(await text('#range-problem pre'), /\n {8}\^$/);
  await shot('mistake.png');
  await type('range', '1 || 😀 ||1..2');
  assert.deepEqual(await texts('#range-problem pre'), ['1 || 😀 ||1..2\n     ^', '1 || 😀 ||1..2\n           ^']);
  await browser.press('Enter');
  assert.equal(await browser.evaluate(`document.getElementById('range').value`), '1 || 😀 ||1..2');
}

async function version() {
  await type('range', '>=1.2 <2 || 3.x');
  await type('version', 'v1.3.0');
  assert.equal((await pairs('summary'))['Matches 1.3.0'], 'yes: >=1.2 <2');
  await type('version', '2.0.0');
  assert.equal((await pairs('summary'))['Matches 2.0.0'], 'no: >=1.2 <2: not <2.0.0; 3.x: not >=3.0.0');
  await type('version', '3.1.0-rc.1');
  assert.equal((await pairs('summary'))['Matches 3.1.0-rc.1'], 'no: >=1.2 <2: not <2.0.0; 3.x: a pre-release, and no bound is one of 3.1.0');
  await type('range', '>1.2.3-rc.2 <=2');
  for (const [typed, why] of [
    ['1.2.3-rc.2', 'not >1.2.3-rc.2'],
    ['1.2.4-rc.1', 'a pre-release, and no bound is one of 1.2.4'],
    ['3.0.0', 'not <3.0.0'],
  ]) {
    await type('version', typed);
    assert.equal((await pairs('summary'))[`Matches ${typed}`], `no: >1.2.3-rc.2 <=2: ${why}`);
  }
  await type('range', 'latest');
  assert.match((await pairs('summary'))['Matches 3.0.0'], /^unknown: a registry/);
  await type('range', '1 || 2');
  await type('version', '1.2');
  assert.match(await text('#version-problem'), /Character 4: /);
  assert.match(await text('#version-problem pre'), /^1\.2\n {3}\^$/);
  assert.deepEqual(Object.keys(await pairs('summary')), ['Canonical form', 'Lowest version']);
  await type('version', '');
  assert.equal(await text('#version-problem'), '');
}

/** What the fields hold. */
const fields = () => browser.evaluate(`Object.fromEntries([...document.querySelectorAll('input, select')].map((it) =>
  [it.id, it.type === 'checkbox' ? it.checked : it.value]))`);
const fragment = () => browser.evaluate('location.hash');
const START = { range: '>=1.2 <2 || 3.x', version: '', other: '', grammar: 'npm', 'pre-releases': false };

/** What is typed stands in the address, and a link with it shows the same. */
async function address() {
  await browser.visit(page);
  assert.deepEqual(await fields(), START);
  const typed = { range: '^1 || 2 & 3%', version: '1.3.0-é', other: '>=1 +#', grammar: 'strict', 'pre-releases': true };
  const changes = [
    () => type('range', typed.range),
    () => type('version', typed.version),
    () => type('other', typed.other),
    () => choose('grammar', typed.grammar),
    () => browser.evaluate(`document.getElementById('pre-releases').click()`),
  ];
  let before = await fragment();
  for (const change of changes) {
    await change();
    const after = await fragment();
    assert.notEqual(after, before);
    before = after;
  }
  assert.deepEqual([...new URLSearchParams(before.slice(1))], Object.entries({ ...typed, 'pre-releases': 'all' }));
  await browser.visit(await browser.evaluate('location.href'));
  assert.deepEqual(await fields(), typed);
  await browser.visit(`${page}#range=%5E2&version=2.1.0-a&grammar=strict&pre-releases=all`);
  assert.equal((await pairs('summary'))['Matches 2.1.0-a'], 'yes: ^2');
  await browser.evaluate(`location.hash = ''`);
  await browser.evaluate('new Promise((resolve) => setTimeout(resolve, 50))');
  assert.equal((await pairs('summary'))['Canonical form'], '^1.2.0 || 3');
  assert.deepEqual(await fields(), START);
}

/** An address that the page didn't write shows what can be read of it. */
async function mistakenAddress() {
  for (const [hash, shown] of [
    ['#%', {}],
    ['#range=1%', { range: '1%' }],
    ['#range=%5E1&version=%E9%zz', { range: '^1', version: '\ufffd%zz' }],
    ['#unknown=1&__proto__=2&other=^2', { other: '^2' }],
    ['#grammar=none&version=1.3.0', { version: '1.3.0' }],
    ['#range=', { range: '' }],
  ]) {
    await browser.visit(page + hash);
    assert.deepEqual(await fields(), { ...START, ...shown }, hash);
    await type('range', '>=1.2 <2');
    assert.equal((await pairs('summary'))['Canonical form'], '^1.2.0', hash);
  }
  await browser.visit(page);
}

async function comparison() {
  await type('range', '>=1.3');
  assert.equal(await isHidden('comparison'), true);
  await type('other', '^1.2');
  assert.deepEqual(await pairs('answers'), {
    'Canonical form': '^1.2.0',
    'Lowest common version': '1.3.0',
    'Bounds overlap': 'yes',
    'First within second': 'no: 2.0.0',
    'Second within first': 'no: 1.2.0',
    'Same versions': 'no',
  });
  assert.equal(await count('svg .second'), 1);
  await type('other', '>=1.3.0 <2 || >=2');
  assert.equal((await pairs('answers'))['Second within first'], 'yes');
  await type('other', 'latest');
  assert.equal(await isHidden('comparison'), true);
}

async function options() {
  await type('other', '');
  await type('range', '>1.0.0 <1.0.1');
  await browser.evaluate(`document.getElementById('pre-releases').focus()`);
  await browser.press(' ', 'Space');
  assert.equal((await pairs('summary'))['Lowest version'], '1.0.1-0');
  assert.equal((await cells())[0][2], 'all between the bounds');
  await browser.press(' ', 'Space');
  await type('range', '1.x');
  await choose('grammar', 'normalized'); // in which this is a tag
  assert.deepEqual(await pairs('summary'), { Tag: '1.x' });
  await choose('grammar', 'npm');
}

/** The fields come in order by the Tab key, and a screen reader is given their labels, the picture's text and the table. */
async function accessibility() {
  await type('range', '~1.2.3-beta || 2 || 3.x.y');
  await type('other', '^1');
  await browser.evaluate(`document.getElementById('range').focus()`);
  const visited = [];
  for (let i = 0; i < 6; i++) {
    visited.push(await browser.evaluate('document.activeElement.id'));
    assert.equal(await browser.evaluate('getComputedStyle(document.activeElement).outlineStyle'), 'solid');
    await browser.press('Tab');
  }
  assert.deepEqual(visited, ['range', 'version', 'other', 'grammar', 'pre-releases', 'line']);
  const nodes = await browser.accessible();
  const has = (role, name) => assert.ok(nodes.some((it) => it[0] === role && name.test(it[1])), `${role} ${name}`);
  has('textbox', /^Range$/);
  has('textbox', /^Version$/);
  has('textbox', /^Compare with$/);
  has('combobox', /^Grammar$/);
  has('checkbox', /^every pre-release/);
  has('image', /~1\.2\.3-beta: >=1\.2\.3-beta <1\.3\.0; 2: >=2\.0\.0 <3\.0\.0/);
  has('columnheader', /^Bounds$/);
  const range = nodes.find(([role, name]) => role === 'textbox' && name === 'Range');
  assert.match(range[2], /Unexpected character/);
}

/** The keys alone choose a grammar and scroll the number line, which no key reaches where it's empty. */
async function keyboard() {
  await browser.size(320, 900);
  await type('range', '1 || 3 || 5 || 7');
  await browser.evaluate(`document.getElementById('grammar').focus()`);
  await browser.press('ArrowDown');
  assert.equal((await fields()).grammar, 'normalized');
  assert.match(await fragment(), /grammar=normalized/);
  await browser.press('Tab');
  await browser.press('Tab');
  await browser.press('ArrowRight');
  await browser.evaluate('new Promise((resolve) => setTimeout(resolve, 500))');
  assert.ok(await browser.evaluate(`document.getElementById('line').scrollLeft > 0`));
  await choose('grammar', 'npm');
  await type('other', '');
  await type('range', 'latest');
  assert.deepEqual([await isHidden('line'), await isHidden('table')], [true, true]);
  await browser.size(1000, 900);
}

/** No text makes the page wider than a phone or a screen, and a mistake's caret is seen. */
async function widths() {
  const long = 'a'.repeat(200);
  const typed = [
    ['>=1.2 <2 || 3.x', '3.1.0-rc.1', '^1.4'],
    [`>=1.2.3-${long} <2 || ~3.1.0-rc.1 || ${long}!`, `1.2.3-${long}`, `^1.4.0-${long}`],
    [`^1.2.3-${long}!`, `1.2.3-${long}!`, `1 || ${long} || 2`],
    [long, '1.2.3', ''],
    ['1 ||'.repeat(100), '1.2.3', '>=1.2.3 '.repeat(100)],
  ];
  for (const width of [320, 1280]) {
    await browser.size(width, 900);
    for (const [range, version, other] of typed) {
      await type('range', range);
      await type('version', version);
      await type('other', other);
      const scrolled = await browser.evaluate('document.documentElement.scrollWidth');
      const shown = await browser.evaluate('document.documentElement.clientWidth');
      assert.ok(scrolled <= shown, `${range}: ${scrolled} is wider than ${shown}`);
      const carets = (await boxes('.caret')).map(([, right]) => right);
      assert.ok(carets.every((right) => right > 0 && right <= shown), `${range}: ${carets}`);
    }
  }
  await browser.size(1000, 900);
}

/** Where many versions stand on the number line, no label covers another, and none leaves the picture. */
async function labels() {
  await type('other', '');
  await type('range', '1.2.3-alpha.10 || 1.2.3-alpha.11 || 2.0.0-beta.12.build || 3.1234.12345 || 4 || 5 || 6 || >7.1234.1234567');
  const axis = await boxes('svg .axis-label');
  axis.slice(1).forEach(([left], i) => assert.ok(left > axis[i][1], `label ${i} covers the next one`));
  const [[first, last]] = await boxes('svg');
  for (const [left, right] of [...axis, ...(await boxes('svg .range-text'))]) assert.ok(left >= first && right <= last, `${left} ${right}`);
}

async function pictures() {
  await type('range', '>=1.2 <2 || ~3.1.0-rc.1 || >5.0.0 || foo bar');
  await type('other', '^1.4 || <=3.1.0');
  await shot('light.png');
  await browser.colors('dark');
  await shot('dark.png');
  await browser.colors('light');
  await browser.size(320, 900);
  await shot('narrow.png');
}

/** Serves the package and its tests to this machine, since a page of a file may import nothing. */
async function served() {
  const top = new URL('../', import.meta.url);
  const server = createServer(({ url }, response) => {
    const isScript = /^\/(out\/package|tests)(\/[\w-]+)+\.m?js$/.test(url);
    response.setHeader('Content-Type', isScript ? 'text/javascript' : 'text/html');
    response.end(isScript ? readFileSync(new URL(url.slice(1), top)) : '');
  });
  await new Promise((resolve) => server.listen(0, '127.0.0.1', resolve));
  return server;
}

/** The stack and the memory run out in the package, as in tests/interrupted.test.mjs. */
async function interrupted() {
  const server = await served();
  const tab = await Browser.open(`http://127.0.0.1:${server.address().port}/`);
  try {
    const { overflows, wrong, wrongByMemory } = await tab.evaluate(`(async () => {
      const modules = ['index', 'compat', 'calls'].map((name) => import('/out/package/' + name + '.js'));
      const [semver, { default: compat }, { wasm }] = await Promise.all(modules);
      const { overflow, questionsOf, runOutOfMemory } = await import('/tests/interrupted.mjs');
      const questions = questionsOf(semver, compat);
      return { ...overflow(questions), wrongByMemory: runOutOfMemory(questions, wasm) };
    })()`);
    assert.deepEqual([wrong, wrongByMemory], [[], []]);
    assert.ok(overflows > 500, `${overflows} overflows`);
    console.log(`The stack ran out ${overflows} times in a browser, and each later answer was right`);
  } finally {
    await tab.close();
    server.close();
  }
}

try {
  assert.deepEqual(browser.errors, []);
  for (const part of [meaning, mistakes, version, address, mistakenAddress, comparison, options]) await part();
  for (const part of [accessibility, keyboard, widths, labels, pictures]) await part();
  assert.deepEqual(browser.errors, []);
  assert.deepEqual(browser.requests.filter((url) => ![page, 'about:blank', 'data:,'].includes(url)), []);
  console.log('The page answers in a browser, without a request to the network');
} finally {
  await browser.close();
}
await interrupted();
