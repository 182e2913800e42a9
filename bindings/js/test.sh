#!/bin/sh
# Builds the npm package and tests it: its own API, memory, the examples of docs/NODE_SEMVER.md, semver.wasm beside the static library, the
# packed package from CommonJS, ES modules and TypeScript, node-semver beside it, and the page in a browser. It prints a line for what it
# leaves out, since the machine lacks it, and stops at the first failure.
#
# usage: test.sh [speed]; with speed it only prints the times of calls, beside node-semver's where that is installed.
# OTHER_NODE is the path of another Node, of Node 18 for example, in which the tests run too, but for the time of an import.
# NODE_SEMVER_SOURCE is a folder of node-semver's sources with its own tests; without it, Debian's are fetched from where apt gets packages.
set -e
here=$(cd "$(dirname "$0")" && pwd)
out=$here/out
bindings=$here/..
debian=/usr/share/nodejs/semver
npm=$(command -v npm >/dev/null && echo "$(npm root -g 2>/dev/null)/npm/node_modules/semver" || true)
export NODE_PATH=/usr/share/nodejs NODE_SEMVERS="$debian:$npm" PYTHONDONTWRITEBYTECODE=1

has() {
    command -v "$1" >/dev/null
}

# The static library under the C code of semver.wasm.
native() {
    renamed="-Dmalloc=heap_malloc -Drealloc=heap_realloc -Dfree=heap_free"
    ${CC:-cc} -O2 -Wall -Wextra -Werror -c $renamed -o "$out/heap_native.o" "$bindings/../packaging/arm64/heap.c"
    ${CC:-cc} -O2 -Wall -Wextra -Werror -I"$bindings/c" -o "$out/native" "$here/tests/native.c" "$bindings/heap.c" \
        "$out/heap_native.o" "$bindings/../crates/semver_c/out/libsemver_c.a"
    node "$here/tests/native.mjs" "$out/native" 100000
}

# Compares the package with the node-semver in this folder, by so many questions a call and seed.
compare() {
    log=$out/compared-$2.log
    if [ ! -f "$1/package.json" ]; then
        echo "JavaScript: no node-semver in $1, so the package isn't compared with it"
    elif node "$here/compare.mjs" "$1" "$2" 1 2 3 4 5 >"$log"; then
        echo "$(head -1 "$log"): each difference is explained"
    else
        cat "$log"
        return 1
    fi
}

# Fetches node-semver's sources from Debian's archive, as apt knows it, and unpacks them if their checksum is right.
fetch_sources() {
    version=7.6.1 sum=6696d30e64d2243a6d9863468eaf01878a60ad43e7b792b487ed3123d0b1270f
    archive=$out/node-semver-$version.tar.gz
    has curl && has apt-get || return 1
    for mirror in $(apt-get indextargets --format '$(REPO_URI)' 'Created-By: Packages' | sort -u); do
        echo "$sum  $archive" | sha256sum --check --status 2>/dev/null && break
        curl -sf -m 20 -o "$archive" "${mirror%/}/pool/main/n/node-semver/node-semver_$version+~7.5.8.orig.tar.gz" || continue
    done
    echo "$sum  $archive" | sha256sum --check --status 2>/dev/null || return 1
    tar -C "$out" -xzf "$archive"
    NODE_SEMVER_SOURCE=$out/node-semver-$version
}

# node-semver's own tests, which its packages lack.
suite() {
    [ -n "$NODE_SEMVER_SOURCE" ] || fetch_sources || true
    if [ -d "$NODE_SEMVER_SOURCE/test" ]; then
        node "$here/tests/suite.mjs" "$NODE_SEMVER_SOURCE"
    else
        echo "JavaScript: node-semver's sources can't be fetched, and NODE_SEMVER_SOURCE names none, so its own tests aren't run"
    fi
}

speed() {
    for folder in "$npm" "$debian"; do
        [ -f "$folder/package.json" ] && { node "$here/speed.mjs" "$@" "$folder"; return; }
    done
    node "$here/speed.mjs" "$@"
}

for tool in node wasm-opt; do
    has $tool || { echo "JavaScript: left out, since there is no $tool"; exit 0; }
done
mkdir -p "$out"
"$here/build.py" >"$out/build.log" 2>&1 || { cat "$out/build.log" >&2; exit 1; }
if [ "$1" = speed ]; then
    speed
    exit
fi
compare "$npm" 8000 & first=$!
compare "$debian" 2000 & second=$!
native
suite
node --expose-gc --test --test-reporter=dot "$here"/tests/*.test.mjs
if [ -n "$OTHER_NODE" ]; then NODE_SEMVERS= "$OTHER_NODE" --expose-gc --test --test-reporter=dot "$here"/tests/*.test.mjs; fi
"$here/tests/packed.sh" "$out"
if has chromium; then node "$here/page/test.mjs"; else echo "JavaScript: no chromium, so the page isn't tried"; fi
wait $first
wait $second
speed --brief >"$out/speed.log"
