// Random texts of versions, ranges, packages and references, the same ones for a seed.

export class Random {
  #state;

  constructor(seed) {
    this.#state = seed >>> 0;
  }

  /** A number below `limit`. */
  below(limit) {
    this.#state = (Math.imul(this.#state, 1664525) + 1013904223) >>> 0;
    return Math.floor((this.#state / 2 ** 32) * limit);
  }

  pick(items) {
    return items[this.below(items.length)];
  }

  /** `make()` a few times. */
  several(most, make) {
    return Array.from({ length: 1 + this.below(most) }, make);
  }
}

const PRE_RELEASES = ['', '', '', '', '', '-0', '-a', '-a.1', '-beta.2', '-rc.1', '-rc.10', '-1.0'];
const BUILDS = ['', '', '', '', '+b', '+1.2'];
const SEPARATORS = [...Array(17).fill(' '), '  ', ', ', ' && '];
const OPERATORS = ['', '^', '~', '>', '>=', '<', '<=', '=', '~>'];
const NUMBERS = ['0', '0', '1', '1', '2', '3', '10', '01', '18446744073709551615', '18446744073709551616'];
const ODD = [
  '1', '2', '.', '0', 'x', '*', '-', ' ', '||', '^', '~', '>', '<', '=', 'v', '+', 'a', 'rc.1', '1.2.3', '&&', ',', '\t', '\n', 'é', '😀',
  'latest', '/', '@', '"', '\ud800', 'npm:', 'jsr:', '@scope/name', '\r', '\0',
];

export class Texts extends Random {
  number() {
    return this.below(100) ? String(this.below(4)) : this.pick(NUMBERS);
  }

  numbers() {
    return `${this.number()}.${this.number()}.${this.number()}`;
  }

  version() {
    return this.numbers() + this.pick(PRE_RELEASES) + this.pick(BUILDS);
  }

  partial() {
    const shapes = [
      () => this.numbers() + this.pick(PRE_RELEASES),
      () => `${this.number()}.${this.number()}`,
      () => this.number(),
      () => `${this.number()}.x`,
      () => `${this.number()}.${this.number()}.*`,
    ];
    return this.pick(shapes)();
  }

  comparator() {
    return this.pick(OPERATORS) + this.partial();
  }

  alternative() {
    const kind = this.below(10);
    if (kind === 0) return `${this.partial()} - ${this.partial()}`;
    if (kind === 1) return '*';
    return this.several(2, () => this.comparator()).join(this.pick(SEPARATORS));
  }

  range() {
    return this.several(3, () => this.alternative()).join(this.pick(['||', ' || ']));
  }

  odd() {
    return this.several(8, () => this.pick(ODD)).join('');
  }

  versions(most = 12) {
    return this.several(most, () => (this.below(15) ? this.version() : this.odd())).join('\n');
  }

  ranges() {
    return this.several(3, () => this.range()).join('\n');
  }

  /** Characters of one to four bytes. The JSON of such a text is checked 64 bytes at a time. */
  wide() {
    return Array.from({ length: this.below(120) }, () => this.pick(['a', 'é', '日', '😀'])).join('');
  }

  package() {
    if (this.below(10) === 0) return `@scope/name@${this.wide()}`;
    return this.pick(['name', '@scope/name', 'a/b', '@a', '']) + this.pick(['', '@', '@']) + this.range();
  }

  reference() {
    if (this.below(10) === 0) return `${this.pick(['npm:', 'jsr:@scope/'])}name@1/${this.wide()}`;
    return this.pick(['npm:', 'jsr:', 'npm:/', 'jsr:@']) + this.package() + this.pick(['', '', '/', '/mod.ts', '/a/b']);
  }

  named() {
    return `${this.pick(['name', '@scope/name', 'a/b', '@a', ''])}${this.pick(['@', '@', ''])}${this.version()}`;
  }

  versionReference() {
    return this.pick(['npm:', 'jsr:', 'npm:/', 'jsr:/']) + this.named() + this.path();
  }

  path() {
    return this.pick(['', '', '.', './', '/']) + this.pick(['', 'mod.ts', 'a/b', 'é', '/']);
  }
}
