// The step to the next version, where its pre-release begins with a word or a number. The library takes the other steps.

const WORD = /^[A-Za-z]+$/;

/** The pre-release behind another one; undefined where the library is to be asked. `base` is the first number, 0, 1 or false. */
export function preReleaseBehind(before, releaseType, identifier, base) {
  switch (releaseType) {
    case 'major':
    case 'minor':
    case 'patch':
      return [];
    case 'premajor':
    case 'preminor':
    case 'prepatch':
      return identifiersBehind([], identifier, base);
    case 'prerelease':
    case 'pre':
      return identifiersBehind(before, identifier, base);
    default:
      return undefined;
  }
}

function identifiersBehind(before, identifier, base) {
  if (base === false || (identifier !== '' && !WORD.test(identifier))) return undefined;
  if (before.length === 0) return identifier === '' ? [base] : [identifier, base];
  if (identifier !== '' && (before[0] !== identifier || before.length === 1)) return [identifier, base];
  return identifier === '' || before.length === 2 ? withNextNumber(before) : undefined;
}

function withNextNumber(before) {
  const next = before.slice();
  const number = next.pop();
  if (typeof number !== 'number' || number + 1 >= Number.MAX_SAFE_INTEGER) return undefined;
  next.push(number + 1);
  return next;
}

/** Raises the numbers of a version, whose pre-release is still as before: it goes before its own release. */
export function raise(version, releaseType) {
  const wasRelease = version.prerelease.length === 0;
  switch (releaseType) {
    case 'major':
    case 'premajor':
      if (releaseType === 'premajor' || wasRelease || version.minor > 0 || version.patch > 0) version.major++;
      version.minor = 0;
      version.patch = 0;
      break;
    case 'minor':
    case 'preminor':
      if (releaseType === 'preminor' || wasRelease || version.patch > 0) version.minor++;
      version.patch = 0;
      break;
    case 'patch':
    case 'prerelease':
      if (wasRelease) version.patch++;
      break;
    case 'prepatch':
      version.patch++;
      break;
  }
}
