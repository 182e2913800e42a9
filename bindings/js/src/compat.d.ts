/**
 * node-semver's functions and classes over the proved library. NODE_SEMVER.md, which is in the package, says where their answers differ
 * from node-semver's.
 *
 * Where node-semver returns null or false for an invalid string, so does this module.
 *
 * @packageDocumentation
 */

/** The options of a call. */
export interface Options {
  /** Whether strings such as `=1.2.3` and `1.2.3beta` are valid, too. */
  readonly loose?: boolean | undefined;
  /** Whether a range matches every pre-release between its bounds. */
  readonly includePrerelease?: boolean | undefined;
}

/** The options of a call; `true` stands for `{ loose: true }`. */
type Loose = boolean | Options | null | undefined;

/** Which operator {@link cmp} applies. */
export type Operator = '===' | '!==' | '' | '=' | '==' | '!=' | '>' | '>=' | '<' | '<=';

/** A version. */
export class SemVer {
  /**
   * Parses a version.
   * @throws TypeError where it's invalid
   */
  constructor(version: string | SemVer, options?: Loose);
  /** The string it was parsed from. */
  raw: string;
  /** The version without its build. */
  version: string;
  /** The first number. */
  major: number;
  /** The second number. */
  minor: number;
  /** The third number. */
  patch: number;
  /** The identifiers of the pre-release, numeric ones as numbers. */
  prerelease: (string | number)[];
  /** The identifiers of the build. */
  build: string[];
  /** The options given. */
  options: Options;
  /** Whether `loose` was given. */
  loose: boolean;
  /** Whether `includePrerelease` was given. */
  includePrerelease: boolean;
  /** -1, 0 or 1, by precedence. */
  compare(other: string | SemVer): -1 | 0 | 1;
  /** -1, 0 or 1, by the three numbers. */
  compareMain(other: string | SemVer): -1 | 0 | 1;
  /** -1, 0 or 1, by the pre-release. */
  comparePre(other: string | SemVer): -1 | 0 | 1;
  /** -1, 0 or 1, by the build. */
  compareBuild(other: string | SemVer): -1 | 0 | 1;
  /** Makes this the next major, minor, patch or pre-release version; the build stays. */
  inc(type: Step, identifier?: string, base?: IdentifierBase): this;
  /** Makes `version` anew from the numbers and the pre-release, and returns it. */
  format(): string;
  /** The version without its build. */
  toString(): string;
}

/** An operator and a version, or any version. */
export class Comparator {
  /** The value of {@link Comparator.semver} if every version matches the comparator. */
  static readonly ANY: symbol;
  /**
   * Parses a comparator.
   * @throws TypeError where it's invalid
   */
  constructor(comparator: string | Comparator, options?: Loose);
  /** The operator; empty for `=`. */
  operator: '' | '>' | '>=' | '<' | '<=';
  /** The version after the operator; {@link Comparator.ANY} where {@link Comparator.value} is empty. */
  semver: SemVer;
  /** The operator and the version; empty for any version. */
  value: string;
  /** The options given. */
  options: Options;
  /** Whether `loose` was given. */
  loose: boolean;
  /** Whether the version matches. Only the order of versions counts, and not npm's rule for pre-releases. */
  test(version: string | SemVer | symbol): boolean;
  /** Whether a version matches both comparators. */
  intersects(comparator: Comparator, options?: Loose): boolean;
  /** The operator and the version. */
  toString(): string;
}

/** A range. */
export class Range {
  /**
   * Parses a range.
   * @throws TypeError where it's invalid
   */
  constructor(range: string | Range | Comparator, options?: Loose);
  /** The string it was parsed from, with single spaces. */
  raw: string;
  /** The comparators as a string, with `||` between alternatives; empty for any version. */
  range: string;
  /** The alternatives, each a list of comparators. A version matches an alternative if it matches all of them. */
  set: readonly (readonly Comparator[])[];
  /** The options given. */
  options: Options;
  /** Whether `loose` was given. */
  loose: boolean;
  /** Whether `includePrerelease` was given. */
  includePrerelease: boolean;
  /** Whether the version matches; false where it's invalid. */
  test(version: string | SemVer): boolean;
  /** Whether a version matches both ranges. */
  intersects(range: Range, options?: Loose): boolean;
  /** Makes `range` anew from the set, and returns it. */
  format(): string;
  /** The comparators as a string. */
  toString(): string;
}

/** The version of SemVer's specification. */
export const SEMVER_SPEC_VERSION: '2.0.0';

/** The kinds of releases. */
export const RELEASE_TYPES: readonly ReleaseType[];

/** The version; null where it's invalid. With `throwErrors` an invalid one throws `TypeError`. */
export function parse(version: string | SemVer | null | undefined, options?: Loose, throwErrors?: boolean): SemVer | null;
/** The version without its build; null where it's invalid. */
export function valid(version: string | SemVer | null | undefined, options?: Loose): string | null;
/** The same as {@link valid}, but any number of `=` and `v` may stand before the version. */
export function clean(version: string, options?: Loose): string | null;
/** The first number. */
export function major(version: string | SemVer, options?: Loose): number;
/** The second number. */
export function minor(version: string | SemVer, options?: Loose): number;
/** The third number. */
export function patch(version: string | SemVer, options?: Loose): number;
/** The identifiers of the pre-release; null where there are none, or the version is invalid. */
export function prerelease(version: string | SemVer, options?: Loose): (string | number)[] | null;

/** -1, 0 or 1, by precedence. */
export function compare(one: string | SemVer, other: string | SemVer, options?: Loose): -1 | 0 | 1;
/** The opposite of {@link compare}. */
export function rcompare(one: string | SemVer, other: string | SemVer, options?: Loose): -1 | 0 | 1;
/** {@link compare} with `loose`. */
export function compareLoose(one: string | SemVer, other: string | SemVer): -1 | 0 | 1;
/** -1, 0 or 1, by precedence and then by the build. */
export function compareBuild(one: string | SemVer, other: string | SemVer, options?: Loose): -1 | 0 | 1;
/** -1, 0 or 1: numeric identifiers by value, before others. */
export function compareIdentifiers(one: string | number, other: string | number): -1 | 0 | 1;
/** The opposite of {@link compareIdentifiers}. */
export function rcompareIdentifiers(one: string | number, other: string | number): -1 | 0 | 1;
/** Whether the first version is above the other. */
export function gt(one: string | SemVer, other: string | SemVer, options?: Loose): boolean;
/** Whether the first version is below the other. */
export function lt(one: string | SemVer, other: string | SemVer, options?: Loose): boolean;
/** Whether both versions have the same precedence. */
export function eq(one: string | SemVer, other: string | SemVer, options?: Loose): boolean;
/** Whether two versions differ in precedence. */
export function neq(one: string | SemVer, other: string | SemVer, options?: Loose): boolean;
/** Whether the first version isn't below the other. */
export function gte(one: string | SemVer, other: string | SemVer, options?: Loose): boolean;
/** Whether the first version isn't above the other. */
export function lte(one: string | SemVer, other: string | SemVer, options?: Loose): boolean;
/** The comparison that the operator names; `===` and `!==` compare strings. */
export function cmp(one: string | SemVer, operator: Operator, other: string | SemVer, options?: Loose): boolean;

/** Sorts the list in place, the lowest first, by precedence and then by the build. */
export function sort<T extends string | SemVer>(list: T[], options?: Loose): T[];
/** Sorts the list in place, the highest first, by precedence and then by the build. */
export function rsort<T extends string | SemVer>(list: T[], options?: Loose): T[];

/** Whether the version matches; false where either is invalid. */
export function satisfies(version: string | SemVer | null | undefined, range: string | Range | Comparator, options?: Loose): boolean;
/** The highest version that matches; null where none does, or the range is invalid. */
export function maxSatisfying<T extends string | SemVer>(versions: readonly T[], range: string | Range, options?: Loose): T | null;
/** The lowest version that matches; null where none does, or the range is invalid. */
export function minSatisfying<T extends string | SemVer>(versions: readonly T[], range: string | Range, options?: Loose): T | null;
/** The lowest version that the range matches; null where no version does. */
export function minVersion(range: string | Range | Comparator, options?: Loose): SemVer | null;
/** The comparators of the range as a string, `*` for any version; null where the range is invalid. */
export function validRange(range: string | Range | Comparator | null | undefined, options?: Loose): string | null;
/** The comparators of the range: for each alternative, a list of strings. */
export function toComparators(range: string | Range | Comparator, options?: Loose): string[][];
/** Whether a version matches both ranges. */
export function intersects(one: string | Range | Comparator, other: string | Range | Comparator, options?: Loose): boolean;
/** Whether `dom` matches each version that `sub` matches. */
export function subset(sub: string | Range | Comparator, dom: string | Range | Comparator, options?: Loose): boolean;
/** Whether the version is above (`>`) or below (`<`) the bounds of each alternative of the range. */
export function outside(version: string | SemVer, range: string | Range | Comparator, hilo: '>' | '<', options?: Loose): boolean;
/** {@link outside} with `>`. */
export function gtr(version: string | SemVer, range: string | Range | Comparator, options?: Loose): boolean;
/** {@link outside} with `<`. */
export function ltr(version: string | SemVer, range: string | Range | Comparator, options?: Loose): boolean;
/** Looks for a shorter range that matches the same versions of this list. Returns it, or the given range if there is none. */
export function simplifyRange<T extends string | Range>(versions: readonly string[], range: T, options?: Loose): string | T;

/** Which next version to make, or what changed between two versions. */
export type ReleaseType = 'major' | 'premajor' | 'minor' | 'preminor' | 'patch' | 'prepatch' | 'prerelease' | 'release';

/** Which next version {@link inc} makes. `pre` raises only the pre-release, and gives one to a release. */
type Step = ReleaseType | 'pre';

/** The first number of a pre-release; `false` for none. */
export type IdentifierBase = '0' | '1' | false;

/** The next major, minor, patch or pre-release version; null where there is none, or where the version is invalid. */
export function inc(version: string | SemVer, type: Step, options?: Loose, identifier?: string, base?: IdentifierBase): string | null;
/** The same without options. */
export function inc(version: string | SemVer, type: Step, identifier?: string, base?: IdentifierBase): string | null;
/** What changed between two versions; null if they have the same precedence. */
export function diff(one: string | SemVer, other: string | SemVer): ReleaseType | null;
/** The options of {@link coerce}. With `includePrerelease` it takes a pre-release and a build, too. */
export interface CoerceOptions extends Options {
  /** Whether to take the last version and not the first one. */
  readonly rtl?: boolean | undefined;
}

/** The first version that a string contains, one to three numbers with `.` between them; null where there is none. */
export function coerce(version: string | number | SemVer | null | undefined, options?: CoerceOptions | boolean): SemVer | null;

/** All of this module, for `import semver from 'deno-semver/compat'`. */
declare const all: Omit<typeof import('./compat.js'), 'default'>;
export default all;
