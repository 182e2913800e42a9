// Calls that are interrupted, and the questions whose answers must be right afterwards. Node and browsers run this alike.

const VERSIONS = Array.from({ length: 40 }, (_, i) => `${i % 5}.${i % 17}.${i % 29}${i % 4 ? '' : `-rc.${i % 7}`}`);
const LONG = `${'^1.2.3-beta.1 || '.repeat(20)}^3`; // too long for the cache

/** One question for each way into the library: calls on texts, cached ranges and held values, and what they return. */
export function questionsOf(semver, compat) {
  const [range, other, tag] = ['^1.2 || ^3', '>=3', 'latest'].map((text) => new semver.Range(text));
  const list = new semver.VersionList([...VERSIONS, 'x']);
  const [version, later] = ['1.2.3-beta.1', '1.2.3-beta.2'].map((text) => new semver.Version(text));
  return {
    matches: () => [semver.matches('^1.2', '1.3.0'), semver.matches('^1.2', '2.0.0')],
    tag: () => semver.matches('latest', '1.0.0'),
    long: () => [semver.matches(LONG, '3.0.1'), semver.matches(LONG, '2.0.0')],
    held: () => ['1.3.0', '3.4.0-rc.1', '4.0.0'].map((text) => range.matches(text)),
    displayed: () => [range.canonical, other.canonical, tag.tag, range.tag],
    ranges: () => [range.intersects(other), range.equals(other), other.intersects(range)],
    list: () => [list.filter(range), list.best(other), list.lowest(range), list.sort()],
    lists: () => [semver.filter('^1.2', VERSIONS), semver.best('^3', VERSIONS), semver.lowest('^1', VERSIONS), semver.sort(VERSIONS)],
    versions: () => [version.compare(later), semver.compare('1.2.3', '1.10.0'), `${new semver.Version('v1.2.3-a')}`, version.preRelease],
    two: () => [semver.isSubset('^1.3', '^1.2'), semver.counterexample('>=1.3', '^1.2'), semver.isEquivalent('1.x', '^1')],
    common: () => [semver.common(['^1.2', '~1.4 || ^2']), semver.intersects('^1', '^2'), semver.minVersion('>1.2.3')],
    explained: () => [semver.canonical('>=1.2 <2 || 3.x'), semver.explain('^1.2 || 1..2'), semver.diagnose('^1.2.3.4')],
    packages: () => [semver.parsePackage('@scope/name@1.x'), semver.parseReference('npm:preact@10'), semver.mayBeTag('latest')],
    compat: () => [compat.satisfies('1.3.0', '^1.2'), compat.valid('v1.2'), compat.validRange('^1.2'), compat.maxSatisfying(VERSIONS, '^1')],
  };
}

/** What a call returns, or the error that it throws. */
function answerOf(call) {
  try {
    return call();
  } catch (error) {
    return [error.name, error.message];
  }
}

/** All answers, as a text. */
export function answersOf(questions) {
  return JSON.stringify(Object.values(questions).map((ask) => answerOf(ask)));
}

/** Calls so many frames above the end of the stack, and returns whether the stack ran out. */
function callNearEnd(frames, call) {
  let left = frames;
  let hasOverflowed = false;
  const dive = () => {
    try {
      dive();
    } catch {
      // the end of the stack
    }
    if (left-- !== 0) return;
    try {
      call();
    } catch (error) {
      hasOverflowed = error instanceof RangeError;
    }
  };
  dive();
  return hasOverflowed;
}

/**
 * Lets the stack run out in each question, at depths from 0 to 40 frames above its end, and once more in what mends that. Returns how often
 * it ran out, and after which of these an answer was wrong.
 */
export function overflow(questions) {
  const right = answersOf(questions);
  const wrong = [];
  let overflows = 0;
  for (let frames = 0; frames <= 40; frames++) {
    for (const [name, ask] of Object.entries(questions)) {
      for (const depth of [frames, frames % 14]) overflows += callNearEnd(depth, ask);
      if (answersOf(questions) !== right) wrong.push(`${name} at ${frames}`);
    }
  }
  return { overflows, wrong };
}

/** Lets memory run out at each allocation of each question in turn, and returns after which of these an answer was wrong. */
export function runOutOfMemory(questions, wasm) {
  const right = answersOf(questions);
  const wrong = [];
  for (const [name, ask] of Object.entries(questions)) {
    let hasRunOut = true;
    for (let allowed = 0; hasRunOut && allowed < 1000; allowed++) {
      wasm.heap_allow(allowed);
      hasRunOut = String(answerOf(ask)).includes('out of memory');
      wasm.heap_allow(-1);
      if (answersOf(questions) !== right) wrong.push(`${name} with ${allowed} allocations`);
    }
  }
  return wrong;
}
