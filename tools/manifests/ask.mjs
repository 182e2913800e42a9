// What npm makes of dependencies and of manifests, by its own modules, in the folder that the argument names. Standard input is a JSON
// object of two lists of texts, `specifiers` and `manifests`; the answers come in the same form, beside the modules' versions.
import { readFileSync } from 'node:fs'
import { createRequire } from 'node:module'

const require = createRequire(process.argv[2] + '/')
const npa = require('npm-package-arg')
const semver = require('semver')
const Node = require('@npmcli/arborist/lib/node.js')
const { normalize } = require('read-package-json-fast')
const { virtual } = require('@npmcli/map-workspaces')
const SECTIONS = ['dependencies', 'devDependencies', 'peerDependencies', 'optionalDependencies']

// The type of a dependency with this text, or `refused`. A range of a repository's tags is one that semver refuses, or not.
function typeOf(name, text) {
  try {
    const found = npa.resolve(name, text, '/tmp')
    return found.gitRange && semver.validRange(found.gitRange, true) === null ? 'refused' : found.type
  } catch {
    return 'refused'
  }
}

// The names and texts of overrides, one in another.
function* overridden(held) {
  for (const [name, text] of Object.entries(held)) {
    if (typeof text === 'object') yield* overridden(text)
    else if (!text.startsWith('$')) yield [name === '.' ? 'p' : name.split('@')[0], text]
  }
}

// The rules that overrides are, one in another.
function* rulesOf(set) {
  for (const rule of set.children.values()) {
    yield rule
    yield* rulesOf(rule)
  }
}

// What npm asks for on behalf of a package, by names and texts: of a name that several sections have it takes one.
function askedBy(node) {
  const edges = [...node.edgesOut.values()]
  // npm asks for an optional peer only if the package isn't the root.
  return edges.filter(({ type }) => type !== 'peerOptional' || !node.isRoot).map(({ name, rawSpec }) => [name, rawSpec])
}

// Stops where npm stops at overrides or workspaces. What it says only of a package that the tree has is asked here as if the tree had it.
function resolve(manifest, root) {
  root.assertRootOverrides()
  const names = new Set(SECTIONS.flatMap((section) => Object.keys(manifest[section] ?? {})))
  for (const { name, keySpec, value, parent } of root.overrides ? rulesOf(root.overrides) : []) {
    if (keySpec !== '*') semver.intersects('*', keySpec)
    // npm compares the key also with what it asks for in place of a package.
    if (!value.startsWith('$')) parent.getEdgeRule({ name, spec: value })
    if (value.startsWith('$') && !names.has(value.slice(1))) throw new Error(`Unable to resolve reference ${value}`)
  }
  if (manifest.workspaces !== undefined) virtual({ lockfile: { packages: { '': manifest } } })
}

function isRefused(text) {
  let manifest
  try {
    manifest = JSON.parse(text)
  } catch {
    return true
  }
  try {
    manifest = normalize(manifest)
    const root = new Node({ path: '/tmp', pkg: manifest, loadOverrides: true })
    const dependency = new Node({ name: 'p', parent: new Node({ path: '/tmp', pkg: {} }), pkg: manifest })
    // npm passes over the key `.` of overrides themselves.
    const { '.': _, ...overrides } = manifest.overrides ?? {}
    const asked = [...askedBy(root), ...askedBy(dependency), ...overridden(overrides)]
    if (asked.some(([name, text]) => typeOf(name, text) === 'refused')) return true
    resolve(manifest, root)
    return false
  } catch {
    return true
  }
}

const { specifiers, manifests } = JSON.parse(readFileSync(0, 'utf8'))
const versions = Object.fromEntries(['@npmcli/arborist', '@npmcli/map-workspaces', 'npm-package-arg', 'semver'].map((name) => [name, require(`${name}/package.json`).version]))
console.log(JSON.stringify({
  versions,
  specifiers: specifiers.map((text) => typeOf('p', text)),
  manifests: manifests.map((text) => (isRefused(text) ? 'refused' : 'accepted')),
}))
