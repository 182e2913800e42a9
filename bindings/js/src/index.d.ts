/**
 * Versions and version ranges of npm and JSR.
 *
 * A version is a string or a {@link Version}. A range is a string or a {@link Range}. You may also pass an object that another copy of this
 * package made.
 *
 * If an argument has another type, the call throws a `TypeError` with the parameter's name. If a string is invalid, it throws a
 * {@link RangeSyntaxError} or a {@link VersionSyntaxError}; if a range is a tag, a {@link TagError}; and if memory runs out, a
 * `RangeError`.
 *
 * @packageDocumentation
 */

declare global {
  interface SymbolConstructor {
    /** The method that a `using` declaration calls. Runtimes from before 2023 have none. */
    readonly dispose: unique symbol;
  }
}

/**
 * A grammar of ranges: npm's, which is the default; `normalized`, comparators separated by whitespace, with alternatives separated by
 * `||`; or `strict`, the grammar of package specifiers: `~`, `^` or nothing before one partial version.
 */
export type Grammar = 'npm' | 'normalized' | 'strict';

/** How a range is parsed. */
export interface GrammarOptions {
  /** The grammar, `npm` by default. */
  readonly grammar?: Grammar;
}

/** Whether invalid versions of a list are left out. */
export interface ListOptions {
  /** Leaves out invalid versions. By default this is false, and an invalid version throws a {@link VersionSyntaxError}. */
  readonly skipInvalid?: boolean;
}

/**
 * How a range is parsed, and which pre-releases it matches. A {@link Range} has options of its own; those of a call replace them, except
 * for the grammar.
 */
export interface Options extends GrammarOptions {
  /**
   * Whether every pre-release between the bounds matches. By default one matches by npm's rule: if it's between the bounds, and a bound
   * is a pre-release with the same three numbers.
   */
  readonly preReleases?: boolean;
}

/** Why a string is invalid. */
export interface Diagnosis {
  /** What is wrong. */
  readonly message: string;
  /**
   * The index at which a range, a version, a package or a reference goes wrong. It is undefined for other strings, and for a string with
   * a lone surrogate.
   */
  readonly start?: number;
  /**
   * The index at which the string ends. In a range it is where the invalid alternative ends, with the whitespace after it. It is
   * undefined if `start` is.
   */
  readonly end?: number;
  /** What could be at `start`: `digit`, `letter`, `whitespace`, `end`, `name`, or a string such as `.`. Empty for a version. */
  readonly expected: readonly string[];
}

/** An invalid string. */
declare class InvalidTextError extends SyntaxError implements Diagnosis {
  /** The string. */
  readonly text: string;
  readonly start?: number;
  readonly end?: number;
  readonly expected: readonly string[];
  /** The index of the string, if it's an item of a list. */
  readonly index?: number;
}

/** A range is invalid. */
export class RangeSyntaxError extends InvalidTextError {}

/** A version is invalid. */
export class VersionSyntaxError extends InvalidTextError {}

/** A package or a reference is invalid. */
export class PackageSyntaxError extends InvalidTextError {}

/** A range is a tag, such as `latest`: a name that a registry gives a version. Only the registry knows what it matches. */
export class TagError extends Error {
  /** The tag. */
  readonly tag: string;
}

/** A version. */
export class Version {
  /**
   * Parses a version.
   * @throws {@link VersionSyntaxError}
   */
  constructor(version: string | Version);
  /** The first number; a `RangeError` is thrown if it's above `Number.MAX_SAFE_INTEGER`. */
  get major(): number;
  /** The second number; a `RangeError` is thrown if it's above `Number.MAX_SAFE_INTEGER`. */
  get minor(): number;
  /** The third number; a `RangeError` is thrown if it's above `Number.MAX_SAFE_INTEGER`. */
  get patch(): number;
  /** The identifiers of the pre-release; empty for a release. */
  get preRelease(): string[];
  /** The identifiers of the build. */
  get build(): string[];
  /**
   * The sort key, for a column of a database: printable ASCII without whitespace. The bytes of two keys compare as
   * {@link Version.compare} compares their versions, and no key begins another.
   * @example new Version('1.10.0-beta.2').sortKey // 'A1B10A0-$beta!#A22!!'
   */
  get sortKey(): string;
  /** -1, 0 or 1: the order by precedence, which ignores the build. */
  compare(other: string | Version): -1 | 0 | 1;
  /** The version as MAJOR.MINOR.PATCH, with its pre-release and build. */
  toString(): string;
  /** The same as {@link Version.toString}. */
  toJSON(): string;
}

/** The sort keys at or above `low` and below `high`, of the releases or the pre-releases that a range matches. */
export interface Scan {
  /** Whether the scan is of pre-releases. */
  isPre: boolean;
  /** The lowest string in the scan. */
  low: string;
  /** The lowest string above the scan. */
  high: string;
}

/**
 * A range, or a tag, that is parsed once. The library holds it until you call `free()`, until the block of its `using` declaration ends,
 * or until JavaScript collects the object.
 */
export class Range {
  /**
   * Parses a range.
   * @throws {@link RangeSyntaxError}
   */
  constructor(range: string | Range, options?: Options);
  /** The string. */
  get text(): string;
  /** The canonical form, meant to be stored: each alternative in one standard way. */
  get canonical(): string;
  /** The tag, if the string is one. */
  get tag(): string | undefined;
  /**
   * Whether the version matches.
   * @throws {@link VersionSyntaxError}, {@link TagError}
   */
  matches(version: string | Version): boolean;
  /** Whether the bounds of both ranges overlap. Two tags overlap if they are the same. */
  intersects(other: string | Range): boolean;
  /** Whether both ranges have the same bounds in the same order, or are the same tag, whatever their strings. */
  equals(other: string | Range): boolean;
  /**
   * What the range matches, as scans of an index on {@link Version.sortKey}: a release matches exactly if its key is in a scan of
   * releases, and a pre-release exactly if its key is in a scan of pre-releases. Scans of releases come first, then scans of
   * pre-releases, each in ascending order, with a gap between one scan and the next.
   * @throws {@link TagError}
   * @example new Range('^1.2').scans() // [{ isPre: false, low: 'A1A2A0~', high: 'A2A0A0~' }]
   */
  scans(): Scan[];
  /** The string. */
  toString(): string;
  /** The string. */
  toJSON(): string;
  /** Frees the range. Its methods throw `TypeError` then. */
  free(): void;
  /** The same as {@link Range.free}, for `using`. */
  [Symbol.dispose](): void;
}

/** The versions of a package, which you parse once and match with many ranges. An invalid one keeps its place and matches nothing. */
export class VersionList<T extends string | Version = string> {
  /** Parses versions. */
  constructor(versions: readonly T[]);
  /** How many versions there are, with the invalid ones. */
  get length(): number;
  /**
   * The versions that match, in the order of the list.
   * @throws {@link TagError}
   */
  filter(range: string | Range, options?: Options): T[];
  /**
   * The highest version that matches, the first of equal ones; `undefined` where none matches.
   * @throws {@link TagError}
   */
  best(range: string | Range, options?: Options): T | undefined;
  /**
   * The lowest version that matches, the first of equal ones; `undefined` where none matches.
   * @throws {@link TagError}
   */
  lowest(range: string | Range, options?: Options): T | undefined;
  /** The versions by precedence, the lowest first, without the invalid ones. Versions that differ only in the build keep their order. */
  sort(): T[];
  /** Frees the list. Its methods throw `TypeError` then. */
  free(): void;
  /** The same as {@link VersionList.free}, for `using`. */
  [Symbol.dispose](): void;
}

/**
 * Whether the version matches the range.
 * @example
 * ```js
 * matches('>=1.2 <2 || 3', '1.3.0') // true
 * ```
 */
export function matches(range: string | Range, version: string | Version, options?: Options): boolean;

/** The versions of the list that match, in its order. */
export function filter<T extends string | Version>(range: string | Range, versions: readonly T[], options?: Options & ListOptions): T[];

/** The highest version of the list that matches, the first of equal ones; undefined where none does. */
export function best<T extends string | Version>(range: string | Range, versions: readonly T[], options?: Options & ListOptions): T | undefined;

/** The lowest version of the list that matches, the first of equal ones; undefined where none does. */
export function lowest<T extends string | Version>(range: string | Range, versions: readonly T[], options?: Options & ListOptions): T | undefined;

/**
 * A short range that matches the same versions of the list: the range as you wrote it or, if that is shorter, the ranges in which they match,
 * in canonical form.
 * @example simplify('1.2.0 || 1.3.0', ['1.1.0', '1.2.0', '1.3.0']) // '>=1.2.0'
 */
export function simplify(range: string | Range, versions: readonly (string | Version)[], options?: Options): string;

/** A new list of the versions by precedence, the lowest first; equal ones stay in their order. */
export function sort<T extends string | Version>(versions: readonly T[], options?: ListOptions): T[];

/** -1, 0 or 1: the order of two versions by precedence, which ignores the build. */
export function compare(one: string | Version, other: string | Version): -1 | 0 | 1;

/**
 * Which next version to make, or what changed between two versions. `premajor`, `preminor` and `prepatch` give the first pre-release of the
 * next major, minor or patch version.
 */
export type ReleaseType = 'major' | 'minor' | 'patch' | 'premajor' | 'preminor' | 'prepatch' | 'prerelease' | 'release';

/** How a pre-release begins. */
export interface PreReleaseStart {
  /** Its identifiers, with `.` between them; none by default. */
  identifier?: string;
  /** The number after them: 0 by default, and `false` for none. */
  base?: 0 | 1 | false;
}

/**
 * There is no next version: a number is too large, you asked for the `release` of a release, or the pre-release would be empty, invalid
 * or the same as before.
 */
export class IncrementError extends Error {
  /** The version. */
  version: string;
}

/**
 * The next major, minor, patch or pre-release version, without a build. After a pre-release, the next release may be its own: `patch` of
 * `1.2.3-rc.1` is `1.2.3`. `prerelease` raises the last number of a pre-release, if the pre-release begins with your identifier and goes
 * on with a number, or if you give no identifier.
 * @example increment('1.2.3', 'prerelease', { identifier: 'beta' }) // '1.2.4-beta.0'
 * @throws {@link VersionSyntaxError} {@link IncrementError}
 */
export function increment(version: string | Version, releaseType: ReleaseType, options?: PreReleaseStart): string;

/**
 * The first version in a string: one to three numbers, separated by dots. Undefined if there is none. With `rtl` it is the version that
 * ends last. With `preReleases` it keeps the pre-release and the build that come right behind its numbers.
 * @example coerce('v3.4 replaces 3.3.1') // '3.4.0'
 */
export function coerce(text: string, options?: { rtl?: boolean; preReleases?: boolean }): string | undefined;

/**
 * What changed between two versions, whichever is the higher one; `null` if they have the same precedence.
 * @example difference('1.2.3', '1.3.0-rc.1') // 'preminor'
 * @throws {@link VersionSyntaxError}
 */
export function difference(one: string | Version, other: string | Version): Exclude<ReleaseType, 'release'> | null;

/**
 * Whether the version is above each version that the range matches.
 * @example isAbove('2.0.0', '^1.2') // true
 * @throws {@link RangeSyntaxError} {@link VersionSyntaxError} {@link TagError}
 */
export function isAbove(version: string | Version, range: string | Range, options?: Options): boolean;

/** Whether the version is below each version that the range matches. */
export function isBelow(version: string | Version, range: string | Range, options?: Options): boolean;

/** Whether `other` matches each version that `one` matches. */
export function isSubset(one: string | Range, other: string | Range, options?: Options): boolean;

/** The lowest version that `one` matches and `other` doesn't; undefined where there is none. */
export function counterexample(one: string | Range, other: string | Range, options?: Options): string | undefined;

/** Whether both ranges match the same versions. */
export function isEquivalent(one: string | Range, other: string | Range, options?: Options): boolean;

/** Whether the bounds of two ranges overlap. The overlap may contain no version; {@link common} is exact. */
export function intersects(one: string | Range, other: string | Range, options?: GrammarOptions): boolean;

/** The lowest version that all ranges match; undefined if there is none, or if you pass no ranges. */
export function common(ranges: readonly (string | Range)[], options?: Options): string | undefined;

/** The lowest version that the range matches; undefined where no version does. */
export function minVersion(range: string | Range, options?: Options): string | undefined;

/** The canonical form of the range, meant to be stored: each alternative in one standard way. If the range is a tag, the tag. */
export function canonical(range: string | Range, options?: GrammarOptions): string;

/** A bound of an alternative. */
export interface Bound {
  /** The version. */
  readonly version: string;
  /** Whether the version itself is within the bound. */
  readonly inclusive: boolean;
}

/** A comparator of a range, such as `>=1.2`, or a hyphen range, such as `1 - 2`. */
export interface Comparator {
  /** The string as written. */
  readonly text: string;
  /** Where it starts; null where it has no lower bound. */
  readonly start: Bound | null;
  /** Where it ends; null where it has no upper bound. */
  readonly end: Bound | null;
}

/** An alternative of a range. */
export interface ValidAlternative {
  /** The string, without the whitespace around it. */
  readonly text: string;
  /** Its comparators; none if it is empty. */
  readonly comparators: readonly Comparator[];
  /** Where it starts; null where it has no lower bound. */
  readonly start: Bound | null;
  /** Where it ends; null where it has no upper bound. */
  readonly end: Bound | null;
  /** The three numbers whose pre-releases match, such as `1.2.3`; `all` if every pre-release between the bounds matches. */
  readonly preReleases: readonly string[] | 'all';
  /** The lowest version that matches; null where none does. */
  readonly lowest: string | null;
  readonly error?: undefined;
}

/** An invalid alternative, which npm's grammar leaves out. */
export interface InvalidAlternative {
  /** The string, without the whitespace around it. */
  readonly text: string;
  /** Why it's invalid. The indexes are of the whole range. */
  readonly error: Diagnosis;
}

/** What a range means: its alternatives and its canonical form; or, if it is a tag, the tag. */
export type Explanation =
  | { readonly alternatives: readonly (ValidAlternative | InvalidAlternative)[]; readonly canonical: string }
  | { readonly tag: string };

/** What a range means, alternative by alternative. */
export function explain(range: string | Range, options?: Options): Explanation;

/** Why a range is invalid; undefined where it's valid. */
export function diagnose(range: string | Range, options?: GrammarOptions): Diagnosis | undefined;

/** The parts of a package with a range, such as `@scope/name@^1.2`. */
export interface PackageParts {
  /** The scope without its `@`; null where there is none. */
  readonly scope: string | null;
  /** The name without its scope. */
  readonly name: string;
  /** The string of the range, `*` where there is none. */
  readonly range: string;
  /** The canonical form of the range. */
  readonly canonical: string;
}

/** The parts of a reference to a package, such as `jsr:@scope/name@1/mod.ts`. */
export interface ReferenceParts {
  /** The registry. */
  readonly kind: 'jsr' | 'npm';
  /** The package. */
  readonly package: PackageParts;
  /** The path within it; null where there is none. */
  readonly path: string | null;
  /** The export of a package of JSR; null for npm. */
  readonly export: string | null;
}

/**
 * The parts of a package with a range.
 * @throws {@link PackageSyntaxError}
 */
export function parsePackage(specifier: string, options?: GrammarOptions): PackageParts;

/**
 * The parts of a reference that begins with `jsr:` or `npm:`. Its range has the strict grammar.
 * @throws {@link PackageSyntaxError}
 */
export function parseReference(specifier: string): ReferenceParts;

/** The parts of a name with a version, such as `@scope/name@1.2.3`. */
export interface NameWithVersionParts {
  /** The scope without its `@`; null where there is none. */
  readonly scope: string | null;
  /** The name without its scope. */
  readonly name: string;
  /** The version. */
  readonly version: string;
}

/** The parts of a reference to one version of a package, such as `jsr:@scope/name@1.2.3/mod.ts`. */
export interface VersionReferenceParts {
  /** The registry. */
  readonly kind: 'jsr' | 'npm';
  /** The package and its version. */
  readonly package: NameWithVersionParts;
  /** The path within it; null where there is none. */
  readonly path: string | null;
  /** The export of a package of JSR; null for npm. */
  readonly export: string | null;
}

/** The parts of a dependency, such as `jsr:@scope/name@^1.2` or `npm:name@1`. */
export interface DependencyParts {
  /** The registry. */
  readonly kind: 'jsr' | 'npm';
  /** The package. */
  readonly package: PackageParts;
  /** The canonical form of the whole string. */
  readonly canonical: string;
}

/**
 * The parts of a name with a version.
 * @throws {@link PackageSyntaxError}
 */
export function parseNameWithVersion(specifier: string): NameWithVersionParts;

/**
 * The parts of a reference to one version of a package.
 * @throws {@link PackageSyntaxError}
 */
export function parseVersionReference(specifier: string): VersionReferenceParts;

/**
 * The parts of a dependency of a package.
 * @throws {@link PackageSyntaxError}
 */
export function parseDependency(specifier: string, options?: GrammarOptions): DependencyParts;

/**
 * The export's name for a module's path in a JSR package.
 * @example exportName('mod.ts') // './mod.ts'
 * @throws {@link PackageSyntaxError} if the path has a lone surrogate
 */
export function exportName(path: string): string;

/** Whether npm's rules allow the name as a tag. */
export function mayBeTag(name: string): boolean;
