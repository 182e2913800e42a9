// The options of node-semver's calls: an object, or anything that is true for `{ loose: true }`.

const NONE = Object.freeze({});
const LOOSE = Object.freeze({ loose: true });

export function optionsOf(options) {
  if (!options) return NONE;
  return typeof options === 'object' ? options : LOOSE;
}
