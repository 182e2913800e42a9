#!/bin/sh
# Compares the declarations of the calls with the library's exports, and README's table of calls with what each language has. Then builds the
# library where a source is newer, and tests the bindings over it: C's, also under the checkers of addresses and threads, Python's, and
# Rust's where cargo is there, with serde and url where Debian's packages are. Each answers the questions of questions.jsonl and runs its
# examples, over the heap of heap.c, which counts what is alive. Then the extensions of SQLite and PostgreSQL, and the npm package over the
# same library (js/test.sh). The packages that Python's parsing is timed beside are Debian's, fetched from where apt gets packages. It stops
# at the first failure.
#
# usage: test.sh [c] [python] [rust] [sqlite] [postgres] [js] [speed]; by default all but speed, which prints the times of calls.
# OUT is a folder for what is built, by default bindings/out; CC is the C compiler. DENO_SEMVER_SOURCE is a folder of Deno's crate that cargo
# builds offline; Debian doesn't have that crate. Then no call of the Rust crate may be slower.
set -e
here=$(cd "$(dirname "$0")" && pwd)
out=${OUT:-$here/out}
lib=$here/../crates/semver_c/out
kit=$(dirname "$(rt doc)")/c
export PYTHONDONTWRITEBYTECODE=1

compile() {
    ${CC:-cc} -O2 -Wall -Wextra -Werror "$@"
}

# The kit's calls of the heap, over those of heap.c.
make_heap() {
    mkdir -p "$out/heap"
    compile -fPIC -c -o "$out/heap/counting.o" "$here/heap.c"
    rm -f "$out/heap/liblibc_c.a"
    objcopy --redefine-sym malloc=heap_malloc --redefine-sym realloc=heap_realloc --redefine-sym free=heap_free \
        "$kit/liblibc_c.a" "$out/heap/liblibc_c.a"
    ar r "$out/heap/liblibc_c.a" "$out/heap/counting.o"
}

# Builds a program of bindings/c over the heap in this folder: its name, the folder, and further options.
program() {
    name=$1 heap=$2
    shift 2
    compile "$@" -I"$here/c" -o "$out/$name" "$here/c/$name.c" "$lib/libsemver_c.a" "$heap/liblibc_c.a"
}

# Builds the shared library of this name over the heap in this folder: its name, the folder, and further options.
shared() {
    name=$1 heap=$2
    shift 2
    compile -shared "$@" -o "$out/$name" -Wl,--whole-archive "$lib/libsemver_c.a" "$heap/liblibc_c.a" -Wl,--no-whole-archive
}

# Runs an example of ../examples, which prints so many of the lines of resolved.txt: their number, and the command.
resolves() {
    lines=$1
    shift
    head -n "$lines" "$here/../examples/resolved.txt" >"$out/wanted"
    "$@" >"$out/resolved"
    diff "$out/wanted" "$out/resolved" || { echo "another answer is expected of: $*" >&2; exit 1; }
}

# Whether the compiler has this checker, and the machine runs it.
has_checker() {
    echo 'int main(void) { return 0; }' | ${CC:-cc} "-fsanitize=$1" -x c -o "$out/checked" - 2>/dev/null && "$out/checked"
}

# Each call that asks a handle is in asks.h.
asks_each() {
    sed -n 's/^int32_t semver_\([a-z_]*\)(const semver_.*/\1/p' "$here/c/semver.h" | while read -r call; do
        grep -q "ask[(_]$call[,(]" "$here/c/asks.h" || { echo "bindings/c/asks.h has no $call" >&2; exit 1; }
    done
}

c() {
    asks_each
    for checks in "" "-g -fsanitize=address,undefined -fno-sanitize-recover=all"; do
        echo "C $checks"
        program questions "$out/heap" $checks
        "$out/questions" "$out/questions.flat"
        for name in examples mistakes; do
            program $name "$out/heap" $checks
            "$out/$name"
        done
    done
    mkdir -p "$out/include/deno_semver"
    cp "$here/c/semver.h" "$out/include/deno_semver"
    compile -I"$out/include" -o "$out/resolve" "$here/../examples/resolve.c" "$lib/libsemver_c.a" "$kit/liblibc_c.a"
    resolves 4 "$out/resolve"
    for checks in "" $(has_checker thread && echo -fsanitize=thread); do
        echo "C, threads $checks"
        program threads "$out/heap" -pthread $checks
        "$out/threads"
    done
}

# Fetches the packages of Debian that speed.py compares with, and unpacks those whose checksums are right.
fetch_others() {
    for tool in apt-get curl dpkg-deb; do
        command -v $tool >/dev/null || return 1
    done
    mirrors=$(apt-get indextargets --format '$(REPO_URI)' 'Created-By: Packages' | sort -u)
    while read -r sum path; do
        package=$out/${path##*/}
        for mirror in $mirrors; do
            echo "$sum  $package" | sha256sum --check --status 2>/dev/null && break
            curl -sf -m 20 -o "$package" "${mirror%/}/pool/main/p/$path" || continue
        done
        echo "$sum  $package" | sha256sum --check --status 2>/dev/null && dpkg-deb -x "$package" "$out/others" || return 1
    done <<END
04adb9e09aa8ed5bd8e31d31143fb265c43dcbec70da19f21e37cbe44b0c32cf python-packaging/python3-packaging_23.0-1_all.deb
d0b718ca4be02412472bf29ab68bf0cc85c466ee8e5df50134b2d305ad4c74a0 python-semver/python3-semver_2.10.2-3_all.deb
e61f95f962db610898f50f41f7cd73b4364d7594f92a6ac9f43a29c7d5f1c9ee python-semantic-version/python3-semantic-version_2.9.0-2_all.deb
END
}

# Runs speed.py over the package in this folder, and beside the fetched packages: the folder, and options.
python_speed() {
    packages=$1
    shift
    if fetch_others; then
        packages=$packages:$out/others/usr/lib/python3/dist-packages
    else
        echo "Python: Debian's packages can't be fetched, so its times are compared only with those of packages that python3 finds" >&2
    fi
    # From elsewhere, since Python looks for packages beside the script first.
    cp "$here/python/speed.py" "$out/speed.py"
    PYTHONPATH=$packages python3 "$out/speed.py" "$@"
}

# The package from its sources over the counting heap, and as a wheel, which pip installs into an empty environment.
python() {
    echo "Python"
    shared libsemver_tested.so "$out/heap"
    export PYTHONPATH="$here/python" DENO_SEMVER_LIBRARY="$out/libsemver_tested.so"
    python3 "$here/python/questions.py" "$here/questions.jsonl"
    python3 "$here/python/tests/test_deno_semver.py" 2>"$out/python.log" || { cat "$out/python.log" >&2; exit 1; }
    grep '^Ran' "$out/python.log"
    checker=$(${CC:-cc} -print-file-name=libasan.so)
    if [ -e "$checker" ]; then
        LD_PRELOAD=$checker ASAN_OPTIONS=detect_leaks=0 python3 "$here/python/tests/test_deno_semver.py" 2>"$out/python.log" ||
            { cat "$out/python.log" >&2; exit 1; }
        echo "and under the address checker"
    fi
    python3 -m doctest "$here/python/README.md"
    resolves 4 python3 "$here/../examples/resolve.py"
    if command -v mypy >/dev/null; then
        (cd "$here/python" && MYPYPATH=. mypy --strict --cache-dir=/dev/null deno_semver tests/typed.py)
    else
        echo "types: left out, since there is no mypy: apt-get install mypy"
    fi
    unset PYTHONPATH DENO_SEMVER_LIBRARY
    shared libdeno_semver.so.0 "$kit" -s
    rm -rf "$out/wheel" "$out/environment"
    mkdir "$out/wheel"
    "$here/python/make_wheel.py" "$out/libdeno_semver.so.0" "$out/wheel" >/dev/null
    python3 -m venv "$out/environment"
    "$out/environment/bin/pip" install --quiet --no-index --disable-pip-version-check "$out"/wheel/*.whl
    (cd "$out" && environment/bin/python -m doctest "$here/python/README.md")
    python_speed "$(echo "$out"/environment/lib/python3*/site-packages)" --brief >"$out/speed.log"
    rm -rf "$out/environment" # rt ci rejects links below the project
    echo "the wheel has $(cat "$out"/wheel/*.whl | wc -c) bytes, and is installed"
}

# Makes the folder that cargo takes the crates from that the Rust crate may use: of empty ones, if they aren't installed.
empty_crates() {
    for crate in serde-1.0.0 serde_json-1.0.0 url-2.0.0; do
        mkdir -p "$out/registry/$crate/src"
        printf '[package]\nname = "%s"\nversion = "%s"\n[features]\nderive = []\n' "${crate%-*}" "${crate#*-}" \
            >"$out/registry/$crate/Cargo.toml"
        touch "$out/registry/$crate/src/lib.rs"
        echo '{"files": {}}' >"$out/registry/$crate/.cargo-checksum.json"
    done
}

# Runs cargo in the crate, without a registry: $registry is the folder of other crates.
offline() {
    rm -f "$here/rust/Cargo.lock"
    (cd "$here/rust" && CARGO_TARGET_DIR=$out/target cargo "$@" --offline --release --quiet \
        --config 'source.crates-io.replace-with="folder"' --config "source.folder.directory=\"$registry\"")
}

rust() {
    if ! command -v cargo >/dev/null; then
        echo "Rust: left out, since there is no cargo"
        return
    fi
    registry=/usr/share/cargo/registry features=counting-heap,serde,url
    if ls -d "$registry"/serde_json-1* "$registry"/serde_derive-1* "$registry"/url-2* >/dev/null 2>&1; then
        echo "Rust"
    else
        echo "Rust, without serde and url: apt-get install librust-serde-dev librust-serde-derive-dev librust-serde-json-dev librust-url-dev"
        registry=$out/registry features=counting-heap
        empty_crates
    fi
    SEMVER_LIB=$lib RATTLE_C=$out/heap QUESTIONS=$out/questions.flat offline test --features $features
    export SEMVER_LIB=$lib RATTLE_C=$kit
    resolves 4 offline run --example resolve
    if [ -n "$DENO_SEMVER_SOURCE" ]; then
        "$here/rust/speed.py" "$DENO_SEMVER_SOURCE" --offline
    else
        echo "Rust: DENO_SEMVER_SOURCE names no folder of Deno's crate, so its speed isn't compared"
    fi
    unset SEMVER_LIB RATTLE_C
}

# SQLite's extension over the counting heap.
sqlite() {
    if ! echo '#include <sqlite3ext.h>' | ${CC:-cc} -E -x c - >/dev/null 2>&1 || ! command -v sqlite3 >/dev/null; then
        echo "SQLite: left out, since there is no sqlite3 or no sqlite3ext.h: apt-get install sqlite3 libsqlite3-dev"
        return
    fi
    echo "SQLite"
    compile -fPIC -shared -I"$here/c" -o "$out/mod_deno_semver.so" "$here/sqlite/mod_deno_semver.c" -Wl,--whole-archive \
        "$lib/libsemver_c.a" "$out/heap/liblibc_c.a" -Wl,--no-whole-archive
    compile -o "$out/rows" "$here/sqlite/rows.c" -lsqlite3 -ldl
    "$out/rows" "$out/mod_deno_semver.so" "$here/sqlite/rows.txt"
    python3 "$here/sqlite/check.py" "$out/mod_deno_semver.so"
    # Of a range of a megabyte, which only SQLite's own limit rejects.
    long="select semver_matches(replace(hex(zeroblob(100000)), '0', '1 || ') || '3', '3.0.0')"
    [ "$(sqlite3 :memory: ".load $out/mod_deno_semver" "$long")" = 1 ] || { echo "SQLite: a long range has no answer" >&2; exit 1; }
    ! sqlite3 :memory: ".load $out/mod_deno_semver" ".limit length 100000" "$long" >"$out/rejected" 2>&1 && grep -q "too big" "$out/rejected" ||
        { echo "SQLite: a long range isn't rejected by SQLITE_LIMIT_LENGTH" >&2; exit 1; }
    resolves 3 sqlite3 :memory: ".load $out/mod_deno_semver" ".read $here/../examples/resolve.sqlite.sql"
    for section in SQLite "Other databases"; do
        rm -f "$out/page.db"
        "$here/page.py" "$section" sqlite3 -cmd ".load $out/mod_deno_semver" "$out/page.db"
    done
}

# PostgreSQL's extension, in a server of its own.
postgres() {
    if ! command -v pg_config >/dev/null || ! [ -e "$(pg_config --pgxs)" ] || ! [ -x "$(pg_config --bindir)/initdb" ] ||
        ! [ -e "$(pg_config --includedir-server)/postgres.h" ]; then
        echo "PostgreSQL: left out, since there is no server to build for: apt-get install postgresql postgresql-server-dev-15"
        return
    fi
    mkdir -p "$out/postgres/lib" "$out/postgres/include/deno_semver"
    cp "$here/c/semver.h" "$out/postgres/include/deno_semver"
    rm -f "$out/postgres/lib/libdeno_semver.a"
    printf 'create %s\naddlib %s\naddlib %s\nsave\nend\n' "$out/postgres/lib/libdeno_semver.a" "$lib/libsemver_c.a" "$kit/liblibc_c.a" | ar -M
    "$here/postgres/test.sh" "$out/postgres"
}

js() {
    echo "JavaScript"
    "$here/js/test.sh"
}

speed() {
    program speed "$kit"
    "$out/speed"
    shared libdeno_semver.so.0 "$kit" -s
    DENO_SEMVER_LIBRARY="$out/libdeno_semver.so.0" python_speed "$here/python"
    if command -v cargo >/dev/null; then
        registry=$out/registry
        empty_crates
        SEMVER_LIB=$lib RATTLE_C=$kit offline run --example speed
    fi
    "$here/js/test.sh" speed
}

[ $# -gt 0 ] || set -- c python rust sqlite postgres js
for part; do
    case $part in
        c | python | rust | sqlite | postgres | js | speed) ;;
        *) echo "usage: test.sh [c] [python] [rust] [sqlite] [postgres] [js] [speed]" >&2; exit 2 ;;
    esac
done
mkdir -p "$out"
"$here/declarations.py" --check
"$here/calls.py" --check
"$here/library.py" >"$out/library.log" 2>&1 || { cat "$out/library.log" >&2; exit 1; }
make_heap
python3 "$here/flatten.py" "$here/questions.jsonl" >"$out/questions.flat"
for part; do
    $part
done
