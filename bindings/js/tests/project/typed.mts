import { Range, Version, VersionList, best, explain, filter, lowest, matches, type Diagnosis, type Options } from 'deno-semver';
import semver, { Comparator, SemVer, maxSatisfying, satisfies } from 'deno-semver/compat';
import { SemVer as same } from 'deno-semver/compat/classes';
import RangeThere from 'deno-semver/compat/classes/range.js';
import satisfiesThere from 'deno-semver/compat/functions/satisfies';
import minVersion from 'deno-semver/compat/ranges/min-version';

const options: Options = { grammar: 'npm', preReleases: true };
const isMatch: boolean = matches('^1.2', new Version('1.3.0'), options);
const texts: string[] = filter('^1.2', ['1.3.0']);
const version: Version | undefined = best('^1.2', [new Version('1.3.0')]);
const highest: string | null = maxSatisfying(['1.3.0'], '^1.2');
const parsed: SemVer | null = semver.parse('1.3.0', true);
const sets: readonly (readonly Comparator[])[] = new semver.Range('^1.2', { includePrerelease: true }).set;
const range = new Range('^1.2');
const listed: string[] = new VersionList(['1.3.0']).filter(range);
range[Symbol.dispose]();
const first: string | undefined = lowest('1', ['1.3.0']);
const meaning = explain('1 || 2');
const errors: Diagnosis[] = 'tag' in meaning ? [] : meaning.alternatives.flatMap((it) => it.error ?? []);
const tag: string | undefined = 'tag' in meaning ? meaning.tag : undefined;
const valid: string[] = filter(range, texts, { skipInvalid: true });
const lowestThere: same | null = satisfiesThere('1.3.0', new RangeThere('^1.2')) ? minVersion('^1.2') : null;
// @ts-expect-error a range is a string or a Range
matches(1, '1.0.0');
// @ts-expect-error no such option
satisfies('1.0.0', '1', { preReleases: true });
// @ts-expect-error no such grammar
matches('1', '1.0.0', { grammar: 'deno' });
export { isMatch, texts, version, highest, parsed, sets, first, listed, errors, tag, valid, lowestThere };
