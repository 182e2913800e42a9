#!/bin/sh
# Packs the package, installs it into an empty project without a network, and runs it there: packed.sh OUT
set -e
here=$(cd "$(dirname "$0")" && pwd)
if ! command -v npm >/dev/null; then
    echo "JavaScript: no npm, so the package isn't packed"
    exit
fi
folder=$(mktemp -d)
trap 'rm -rf "$folder"' EXIT
(cd "$1/package" && npm pack --offline --silent --pack-destination "$folder" >/dev/null)
cp "$here"/project/* "$folder"
cd "$folder"
npm install --offline --silent --no-audit --no-fund ./deno-semver-*.tgz
node module.mjs
node common.cjs
if command -v esbuild >/dev/null; then
    for format in esm cjs; do
        esbuild module.mjs --bundle --minify --platform=node --format=$format --outfile=bundled.$format.js --log-level=warning
    done
    mv bundled.esm.js bundled.mjs
    mv bundled.cjs.js bundled.cjs
    node bundled.mjs
    node bundled.cjs
else
    echo "JavaScript: no esbuild, so the package isn't bundled"
fi
cp "$here/../../../examples/resolve.mjs" .
node resolve.mjs | diff "$here/../../../examples/resolved.txt" -
if command -v tsc >/dev/null; then
    tsc --strict --target es2022 --module node16 --moduleResolution node16 --noEmit typed.mts typed.cts
    tsc --strict --target es2022 --module commonjs --moduleResolution node --noEmit typed.cts
else
    echo "JavaScript: no tsc, so the types aren't checked"
fi
echo "The packed package has $(wc -c <"$(ls deno-semver-*.tgz)") bytes, and runs as an ES module and as CommonJS"
