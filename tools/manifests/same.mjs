// Which ranges mean something else to npm once they are rewritten, by its own module semver, in the folder that the argument names. Standard
// input is a JSON array of pairs, a range as it was and as it is. Where a version matches one of the two, the pair comes back with it.
import { readFileSync } from 'node:fs'
import { createRequire } from 'node:module'

const semver = createRequire(process.argv[2] + '/')('semver')
const NUMBERS = [0, 1, 2, 3, 4]
const KINDS = ['', '-0', '-beta', '-rc.1']
const numbers = NUMBERS.flatMap((major) => NUMBERS.flatMap((minor) => NUMBERS.map((patch) => `${major}.${minor}.${patch}`)))
const versions = numbers.flatMap((text) => KINDS.map((kind) => text + kind))

const told = []
for (const [old, now] of JSON.parse(readFileSync(0, 'utf8'))) {
  const [one, other] = [old, now].map((text) => new semver.Range(text.replaceAll(',', ' '), true))
  const version = versions.find((version) => one.test(version) !== other.test(version))
  if (version !== undefined) told.push([old, now, version])
}
console.log(JSON.stringify(told))
