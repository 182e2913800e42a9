#!/bin/sh
# Installs into a folder of its own and tries what is there, removes it, and then makes a release twice, whose bytes must be the same, and
# tries what is in it, with a clean environment: the programs, the manual pages, and a C program over the shared and the static library
# by pkg-config. It compares the files of each, and their modes, with a list, and looks for the licences in each package. What would have
# to be proved first isn't in it: static programs, if neither `make x86_64` nor a first `rt ci` left their object files, and arm64, if
# `make aarch64` didn't; qemu-aarch64 runs that. It stops at the first failure. Run at the top of the project, after a build.
set -e
root=$(mktemp -d)
trap 'rm -rf "$root"' EXIT
export PYTHONDONTWRITEBYTECODE=1
version=$(make -s version)

fail() {
    echo "packaging: $1" >&2
    exit 1
}

has() {
    command -v "$1" >/dev/null
}

expect() { # WANTED COMMAND.. with a clean environment
    wanted=$1
    shift
    got=$(env -i PATH=/usr/sbin:/usr/bin:/sbin:/bin "$@") || got="$got (status $?)"
    [ "$got" = "$wanted" ] || fail "$*: $got, and not $wanted"
}

# The programs and the manual pages below a folder; further arguments run the programs.
try_programs() { # FOLDER COMMAND..
    folder=$1
    shift
    expect "ranges $version" "$@" "$folder/bin/ranges" --version
    expect "npmver $version" "$@" "$folder/bin/npmver" --version
    expect yes "$@" "$folder/bin/npmver" fits npm '>=1.2 <2 || 3' 1.3.0
    if has man; then
        for page in "$folder"/share/man/man1/*; do
            man -l "$page" >"$root/page"
            grep -q 'EXIT STATUS' "$root/page" || fail "$page has no exit status"
            grep -q "deno_semver $version" "$root/page" || fail "$page doesn't have the version $version"
        done
    fi
}

# packaging/example.c over the library below a folder, by a C compiler; further arguments run it. PKG_CONFIG_SYSROOT_DIR is for DESTDIR.
try_c() { # LIBDIR COMPILER COMMAND..
    libraries=$1 compiler=$2
    shift 2
    if ! has pkg-config; then
        echo 'packaging: no pkg-config, so no C program is built over the installed library'
        return
    fi
    export PKG_CONFIG_LIBDIR="$libraries/pkgconfig"
    $compiler -o "$root/shared" packaging/example.c $(pkg-config --cflags --libs deno_semver)
    $compiler -o "$root/static" packaging/example.c $(pkg-config --cflags deno_semver) "$libraries/libdeno_semver.a"
    expect yes env LD_LIBRARY_PATH="$libraries" "$@" "$root/shared"
    expect yes "$@" "$root/static"
    # Within another shared library the calls can stay hidden.
    $compiler -shared -fPIC -o "$root/own.so" packaging/example.c $(pkg-config --cflags deno_semver) "$libraries/libdeno_semver.a" \
        -Wl,--exclude-libs,libdeno_semver.a
    if nm -D --defined-only "$root/own.so" | grep ' semver_\| rattle_'; then fail 'a shared library over the archive exports its symbols'; fi
    rm "$root/shared" "$root/static" "$root/own.so"
}

# With few commands, make test stops before the proofs, and all that is missing is named at once.
names_missing() {
    mkdir "$root/few"
    for command in mktemp rm sh tar gzip; do ln -s "$(command -v $command)" "$root/few/$command"; done
    printf '#!/bin/sh\nexit 1\n' >"$root/few/cc"
    cp "$root/few/cc" "$root/few/python3"
    chmod 755 "$root/few/cc" "$root/few/python3"
    if PATH=$root/few "$(command -v make)" test >"$root/missing.log" 2>&1; then fail 'make test runs without its tools'; fi
    for missing in 'rt (the Rattle kit)' "git (Debian's package git)" "objcopy (Debian's package binutils)" \
        "python3 -m venv (Debian's package python3-venv)" "cc that links a program (Debian's package libc6-dev)"; do
        grep '^missing: ' "$root/missing.log" | grep -qF "$missing" || fail "without tools make test says: $(cat "$root/missing.log")"
    done
    rm -r "$root/few"
}

# Compares what is below a folder with a list on standard input: of each file its mode and its name, of a link what it names.
holds() { # FOLDER
    sort -k 2 >"$root/wanted"
    find "$1" -type f -printf '%m %P\n' -o -type l -printf 'link %P %l\n' -o ! -type d -printf 'other %P\n' | sort -k 2 >"$root/found"
    diff "$root/wanted" "$root/found" >&2 || fail "$1 holds other files, or modes, than it should (> found, < wanted)"
    find "$1" -mindepth 1 -type d ! -perm 755 -printf '%m %p\n' >"$root/found"
    [ ! -s "$root/found" ] || fail "folders with other modes than 755: $(cat "$root/found")"
}

# What make install and the tarballs hold alike, of what was built in a folder.
installed() { # LIBDIR FOLDER
    cat <<END
755 bin/npmver
755 bin/ranges
644 include/deno_semver/semver.h
644 $1/libdeno_semver.a
link $1/libdeno_semver.so libdeno_semver.so.0
644 $1/libdeno_semver.so.0
644 $1/pkgconfig/deno_semver.pc
644 share/bash-completion/completions/npmver
644 share/bash-completion/completions/ranges
644 share/fish/vendor_completions.d/npmver.fish
644 share/fish/vendor_completions.d/ranges.fish
644 share/man/man1/npmver.1
644 share/man/man1/ranges.1
644 share/zsh/site-functions/_npmver
644 share/zsh/site-functions/_ranges
END
    if [ -f "$2/mod_deno_semver.so" ]; then echo "644 $1/mod_deno_semver.so"; fi
}

# The extension of SQLite in a folder, if it was built.
try_sqlite() { # LIBDIR
    extension=$1/mod_deno_semver.so
    if ! [ -f "$extension" ]; then
        echo 'packaging: no sqlite3ext.h (Debian package libsqlite3-dev), so there is no extension of SQLite'
        return
    fi
    exported=$(nm -D --defined-only "$extension" | awk '$2 != "A" { print $3 }')
    [ "$exported" = sqlite3_moddenosemver_init ] || fail "the extension of SQLite exports $exported"
    if ! has sqlite3; then
        echo 'packaging: no sqlite3, so its extension is not tried'
        return
    fi
    expect 1 sqlite3 :memory: ".load ${extension%.so}" "select semver_matches('>=1.2 <2 || 3', '1.3.0')"
}

# Whether a file, or a folder's LICENSE and THIRD-PARTY, has the licence of the project and the notices.
licensed() { # FILE_OR_FOLDER
    if [ -d "$1" ]; then
        cmp LICENSE "$1/LICENSE" && cmp packaging/THIRD-PARTY "$1/THIRD-PARTY" || fail "$1 lacks a licence"
    else
        { cat LICENSE; echo; cat packaging/THIRD-PARTY; } | cmp - "$1" || fail "$1 lacks a licence"
    fi
}

# THIRD-PARTY has each crate of the kit that the project names, or of which a symbol is in what was built, and the crate's lines of
# copyright.
names_crates() {
    kit=$(dirname "$(rt doc)")/rattle
    sed 's/.*://' crates.txt | tr ' ' '\n' >"$root/crates"
    for built in crates/ranges/out/ranges.o crates/npmver/out/npmver.o crates/semver_c/out/libsemver_c.a; do
        if [ -f $built ]; then nm $built 2>/dev/null | awk '{ print $NF }' | grep -o '^[a-z_0-9]*::' | tr -d : >>"$root/crates"; fi
    done
    sort -u "$root/crates" | while read -r crate; do
        for licence in "$kit/$crate"/LICENSE*; do
            [ -n "$crate" ] && [ -f "$licence" ] || continue
            case $licence in
                *-UNICODE) name=Unicode ;;
                *) name=$(echo "$crate" | sed 's/_/[-_]/g') ;;
            esac
            [ "$crate" != ryu ] || name=zmij
            grep -q "\<$name\>" packaging/THIRD-PARTY || fail "packaging/THIRD-PARTY doesn't name $crate"
            grep -h '^ *Copyright \((c)\|©\)' "$licence" | while read -r line; do
                grep -qF "$line" packaging/THIRD-PARTY || fail "packaging/THIRD-PARTY lacks the line of $crate: $line"
            done
        done
    done
}

rejects() { # WHY ARGUMENT.. by make install
    why=$1
    shift
    if make -s install DESTDIR="$root/none" "$@" 2>/dev/null; then fail "$why is accepted"; fi
    [ ! -e "$root/none" ] || fail "an install that is rejected for $why leaves files"
}

install_and_remove() {
    prefix=/opt/semver
    here=$root/installed$prefix
    rejects 'a relative PREFIX' PREFIX=relative
    rejects 'a PREFIX with whitespace' PREFIX='/a b'
    rejects 'a relative LIBDIR' LIBDIR=lib64
    (umask 077 && make -s install PREFIX=$prefix LIBDIR=$prefix/lib64 DESTDIR="$root/installed" >/dev/null)
    { installed lib64 out; printf '644 share/doc/deno-semver/%s\n' LICENSE THIRD-PARTY; } | holds "$here"
    licensed "$here/share/doc/deno-semver"
    try_programs "$here"
    completion="$here/share/bash-completion/completions/ranges"
    expect explain bash -c ". '$completion'; COMP_WORDS=(ranges ex); COMP_CWORD=1; _ranges; echo \${COMPREPLY[@]}"
    expect any-zero= bash -c ". '$completion'; COMP_WORDS=(ranges check --rule any); COMP_CWORD=3; _ranges; echo \${COMPREPLY[@]}"
    expect off bash -c ". '$completion'; COMP_WORDS=(ranges check --rule any-zero = o); COMP_CWORD=5; _ranges; echo \${COMPREPLY[@]}"
    expect minor bash -c ". '$completion'; COMP_WORDS=(ranges increment mi); COMP_CWORD=2; _ranges; echo \${COMPREPLY[@]}"
    expect /etc bash -c ". '$completion'; COMP_WORDS=(ranges asked /et); COMP_CWORD=2; _ranges; echo \${COMPREPLY[@]}"
    if nm -D --defined-only "$here/lib64/libdeno_semver.so.0" | grep -v ' semver_\| DENO_SEMVER_0'; then
        fail 'the shared library exports more than semver.h'
    fi
    PKG_CONFIG_SYSROOT_DIR=$root/installed
    export PKG_CONFIG_SYSROOT_DIR
    try_c "$here/lib64" "${CC:-cc}"
    try_sqlite "$here/lib64"
    unset PKG_CONFIG_SYSROOT_DIR
    make -s uninstall PREFIX=$prefix LIBDIR=$prefix/lib64 DESTDIR="$root/installed"
    [ -z "$(find "$root/installed" ! -type d)" ] || fail 'make uninstall leaves files'
    echo 'packaging: installed, tried and removed'
}

# What the programs ask of the kit's C on x86-64 is there for arm64 too. This needs no compiler for arm64.
has_arm64_calls() {
    for part in system heap; do
        ${CC:-cc} -O2 -Wall -Wextra -Werror -c -o "$root/$part.o" "packaging/arm64/$part.c"
    done
    nm -u out/x86_64/ranges.o out/x86_64/npmver.o | grep -o 'rattle_.*' | sort -u >"$root/asked"
    nm --defined-only "$root/system.o" "$root/heap.o" | grep -o 'rattle_.*' | sort -u >"$root/present"
    [ -s "$root/asked" ] || fail 'no program asks the C code for anything'
    missing=$(comm -23 "$root/asked" "$root/present")
    [ -z "$missing" ] || fail "packaging/arm64 lacks $missing"
    rm "$root/system.o" "$root/heap.o"
}

release_twice() {
    for time in first second; do
        make -s dist GATE= STATIC="$static" ARCHES="$arches" DIST="$root/$time" >/dev/null
    done
    cmp "$root/first/SHA256SUMS" "$root/second/SHA256SUMS" || fail 'two releases of one commit differ'
    (cd "$root/first" && sha256sum --quiet -c SHA256SUMS)
}

# Each link of a page to another file leads to one.
links_lead() { # PAGE..
    for page; do
        grep -o '](\([^)#]*\)' "$page" | sed 's/^](//' | grep -v '^$\|^[a-z]*:' | while read -r link; do
            [ -e "$(dirname "$page")/$link" ] || fail "$page has a link to $link, which isn't there"
        done
    done
}

# The sources are what git has, and say their version.
try_sources() {
    tar -C "$root" -xzf "$root/first/deno_semver-$version.tar.gz"
    (cd "$root/deno_semver-$version" && find . -type f -printf '%P\n' | sort) >"$root/found"
    git ls-files | sort | diff - "$root/found" >&2 || fail 'the tarball of the sources holds other files than git'
    expect "$version" make -s -C "$root/deno_semver-$version" version
}

# Unpacks a tarball, and tries every row of the programs besides.
try_tarball() { # ARCH COMPILER COMMAND..
    arch=$1 compiler=$2
    shift 2
    tar -C "$root" -xzf "$root/first/deno_semver-$version-$arch-linux.tar.gz"
    unpacked=$root/deno_semver-$version-$arch-linux
    {
        installed lib "out/$arch"
        printf '644 %s\n' LICENSE README.md THIRD-PARTY
        git ls-files '*.md' ':!README.md' | sed 's/^/644 /'
        if [ -n "$static" ]; then echo '644 LGPL-2.1'; fi
    } | holds "$unpacked"
    licensed "$unpacked"
    links_lead "$unpacked/README.md" "$unpacked"/bindings/*/README.md
    if [ -n "$static" ] && readelf -l "$unpacked/bin/ranges" "$unpacked/bin/npmver" | grep INTERP; then
        fail 'a program of the release needs a loader'
    fi
    try_programs "$unpacked" "$@"
    try_c "$unpacked/lib" "$compiler" "$@"
    tools/programs/check.py "$unpacked/bin" "$@"
    if [ -n "$static" ]; then try_objects "$@"; fi
}

# Links the programs from the tarball with their object files, as THIRD-PARTY says it.
try_objects() { # COMMAND..
    objects=$unpacked-objects
    tar -C "$root" -xzf "$root/first/$(basename "$objects").tar.gz"
    licensed "$objects"
    sed -n 's/^    cc \(-static .*\)/\1/p' packaging/THIRD-PARTY >"$root/commands"
    [ -s "$root/commands" ] || fail "packaging/THIRD-PARTY doesn't say how to link the programs"
    while read -r options; do (cd "$objects" && $compiler $options); done <"$root/commands"
    expect "ranges $version" "$@" "$objects/ranges" --version
    expect yes "$@" "$objects/npmver" fits npm '>=1.2 <2 || 3' 1.3.0
}

# Installs and removes the package below a folder with a database of its own, so that the machine's stays as it is.
try_debian() {
    package=$(ls "$root"/first/*.deb)
    if has lintian; then
        lintian --allow-root --fail-on error,warning "$package" >"$root/lintian.log" 2>&1 || fail "lintian: $(cat "$root/lintian.log")"
    else
        echo 'packaging: no lintian, so the Debian package is not judged by it'
    fi
    expect "$version-1" dpkg-deb -f "$package" Version
    dpkg-deb -x "$package" "$root/unpacked"
    {
        installed lib/x86_64-linux-gnu out/x86_64 | sed -e 's|man1/.*|&.gz|' -e 's|site-functions|vendor-completions|'
        printf '644 share/doc/deno-semver/%s\n' copyright changelog.Debian.gz
        echo '644 share/lintian/overrides/deno-semver'
    } | holds "$root/unpacked/usr"
    licensed "$root/unpacked/usr/share/doc/deno-semver/copyright"
    newest=$(objdump -T "$root"/unpacked/usr/bin/* "$root"/unpacked/usr/lib/*/*.so* 2>/dev/null | grep -o 'GLIBC_[0-9.]*' | sort -V | tail -n 1)
    expect "libc6 (>= ${newest#GLIBC_})" dpkg-deb -f "$package" Depends
    if [ "$(id -u)" != 0 ]; then
        echo 'packaging: not root, so the Debian package is not installed'
        return
    fi
    system=$root/system
    mkdir -p "$system/var/lib/dpkg/info" "$system/var/lib/dpkg/updates"
    touch "$system/var/lib/dpkg/status"
    dpkg --root="$system" --force-depends -i "$package" >"$root/dpkg.log" 2>&1 || fail "dpkg -i: $(cat "$root/dpkg.log")"
    try_programs "$system/usr"
    try_sqlite "$system/usr/lib/x86_64-linux-gnu"
    dpkg --root="$system" -r deno-semver >"$root/dpkg.log" 2>&1 || fail "dpkg -r: $(cat "$root/dpkg.log")"
    [ ! -e "$system/usr" ] || fail 'dpkg -r leaves files'
}

# Installs the wheel into an empty environment, builds a program over the crate, and installs the npm package, each from the release.
try_packages() {
    python3 -m venv "$root/environment"
    "$root/environment/bin/pip" install --quiet --no-index --disable-pip-version-check "$root"/first/*.whl
    expect 1.2.0 "$root/environment/bin/python" -c 'import deno_semver; print(deno_semver.best("^1", ["1.0.0", "1.2.0", "2.0.0"]))'
    "$root/environment/bin/pip" install --quiet --no-index --disable-pip-version-check --force-reinstall ./bindings/python
    expect 1.2.0 "$root/environment/bin/python" -c 'import deno_semver; print(deno_semver.VersionList(["1.0.0", "1.2.0"]).best("^1"))'
    licensed "$(echo "$root"/environment/lib/python3*/site-packages/"deno_semver-$version.dist-info/licenses")"
    tar -C "$root" -xzf "$root/first/deno_semver_proved-$version-x86_64-linux.tar.gz"
    licensed "$root/deno_semver_proved-$version"
    links_lead "$root/deno_semver_proved-$version/README.md"
    # Cargo builds nothing in the crate's folder unless each test that Cargo.toml names is there.
    for name in $(sed -n '/^\[\[test\]\]/{n;s/name = "\(.*\)"/\1/p}' bindings/rust/Cargo.toml); do
        [ -f "$root/deno_semver_proved-$version/tests/$name.rs" ] || fail "the Rust crate has no tests/$name.rs"
    done
    try_javascript
    follow 'a terminal' 1.10.0 "echo '{\"dependencies\": {\"a\": \"^1\"}}' >package.json"
    follow Python 1.10.0
    if has npm && [ -e "$root/first/deno-semver-$version.tgz" ]; then follow JavaScript 1.10.0; fi
    if has cargo; then
        # The crate's page has the program.
        awk '$0 == "```" && inside { exit } inside; $0 == "```rust" { inside = 1 }' bindings/rust/README.md >"$root/main.rs"
        follow Rust '^1.2.0 || 3' 'cargo init --quiet --name reader' "cp $root/main.rs src && cargo run --offline --quiet"
    fi
}

# The lines that README has for such a reader, with the folder of the release.
lines_for() { # WORD
    awk -v word="# For $1" '
        index($0, "# For ") == 1 { within = index($0, word) == 1; next }
        $0 == "" || $0 == "```" { within = 0 }
        within' README.md | sed "s|FOLDER|$root/first|"
}

# Follows README from an empty folder to a first answer, the last line that its commands print. What they install for all users goes into a
# folder. BEFORE and AFTER are commands that README leaves to the reader.
follow() { # WORD WANTED [BEFORE AFTER]
    mkdir -p "$root/local" "$root/reader"
    lines_for "$1" >"$root/reader.sh"
    [ -s "$root/reader.sh" ] || fail "README has no lines for $1"
    {
        echo 'set -e; sudo() { [ "$1" = ldconfig ] || "$@"; }'
        echo "export PATH='$root/local/bin:$PATH' PIP_NO_INDEX=1 npm_config_offline=true; $3"
        sed "s|/usr/local|$root/local|" "$root/reader.sh"
        echo "$4"
    } >"$root/lines"
    got=$(cd "$(mktemp -d "$root/reader/XXXXXX")" && sh "$root/lines" 2>"$root/said" | tail -n 1)
    [ "$got" = "$2" ] || fail "README's lines for $1: $got, and not $2: $(cat "$root/said")"
}

# A release without a semver.wasm that is up to date has no npm package and no page, and RELEASE says why.
lacks_javascript() { # FOLDER
    if why=$(bindings/js/package.py 2>&1); then fail 'semver.wasm is up to date'; fi
    if ls "$1"/*.tgz "$1"/*-page.tar.gz 2>/dev/null; then fail "the release has an npm package or a page, though $why"; fi
    grep -qF "$why" "$1/RELEASE" || fail "RELEASE doesn't say that $why"
}

# The npm package and the page, where semver.wasm is up to date; and then a release while it is older than its sources.
try_javascript() {
    if ! why=$(bindings/js/package.py 2>&1); then
        lacks_javascript "$root/first"
        echo "packaging: no npm package and no page is tried, since $why"
        return
    fi
    tar -C "$root" -xzf "$root/first/deno_semver-$version-page.tar.gz"
    printf '644 %s\n' LICENSE THIRD-PARTY index.html | holds "$root/deno_semver-$version-page"
    licensed "$root/deno_semver-$version-page"
    cmp bindings/js/out/page/index.html "$root/deno_semver-$version-page/index.html" || fail 'the release has another page'
    if has npm; then
        mkdir "$root/project"
        echo '{"private": true}' >"$root/project/package.json"
        (cd "$root/project" && npm install --offline --silent --no-audit --no-fund "$root/first/deno-semver-$version.tgz" >/dev/null)
        licensed "$root/project/node_modules/deno-semver"
        (cd "$root/project" && expect true "$(command -v node)" -p 'require("deno-semver").matches("^1.2", "1.3.0")')
    fi
    touch -r bindings/js/out/semver.wasm "$root/time"
    touch -d 2000-01-01 bindings/js/out/semver.wasm
    make -s dist GATE= STATIC="$static" ARCHES=x86_64 DIST="$root/stale" >/dev/null
    lacks_javascript "$root/stale"
    touch -r "$root/time" bindings/js/out/semver.wasm
}

# In a copy of the sources with a file in place of semver.wasm: the npm package is made of it, and with what changed in the sources since,
# unless a source of semver.wasm is newer.
rejects_stale() {
    copy=$root/copy
    mkdir "$copy"
    tar -cf - --exclude=out crates crates.txt bindings docs/NODE_SEMVER.md LICENSE packaging/THIRD-PARTY | tar -C "$copy" -xf -
    if why=$("$copy/bindings/js/package.py" 2>&1); then fail 'an npm package is made without semver.wasm'; fi
    [ "$why" = 'bindings/js/build.py has built no semver.wasm' ] || fail "without semver.wasm: $why"
    mkdir "$copy/bindings/js/out"
    echo wasm >"$copy/bindings/js/out/semver.wasm"
    "$copy/bindings/js/package.py"
    rm "$copy/bindings/js/src/held.js"
    sed -i 's/"held", //' "$copy/bindings/js/package.py"
    echo '// changed' >>"$copy/bindings/js/src/index.js"
    "$copy/bindings/js/package.py"
    grep -q '^// changed' "$copy/bindings/js/out/package/index.js" || fail 'the npm package has an old source'
    [ ! -e "$copy/bindings/js/out/package/held.js" ] || fail 'the npm package has a source that was removed'
    for source in crates/semver_base/src/lib.rt crates/semver_c/src/lib.rt bindings/js/wasm/semver_wasm.c bindings/js/wasm/exports.h \
        bindings/js/build.py bindings/c/semver.h; do
        touch -d '1 minute' "$copy/$source"
        if "$copy/bindings/js/package.py" 2>"$root/why"; then fail "an npm package is made though $source is newer than semver.wasm"; fi
        grep -q "${source%/src/*}" "$root/why" || fail "what is newer than semver.wasm isn't said: $(cat "$root/why")"
        touch -r "$copy/bindings/js/out/semver.wasm" "$copy/$source"
    done
    rm -r "$copy"
}

# C's questions and examples over arm64's heap, which counts blocks and runs out of memory as bindings/test.sh has it.
try_questions() { # COMMAND..
    aarch64-linux-gnu-gcc -O2 -c -o "$root/counting.o" bindings/heap.c
    aarch64-linux-gnu-objcopy --redefine-sym malloc=heap_malloc --redefine-sym realloc=heap_realloc --redefine-sym free=heap_free \
        out/aarch64/heap.o "$root/heap.o"
    python3 bindings/flatten.py bindings/questions.jsonl >"$root/questions.flat"
    for name in questions examples; do
        aarch64-linux-gnu-gcc -O2 -Ibindings/c -o "$root/$name" "bindings/c/$name.c" out/aarch64/libsemver_c.a "$root"/*.o
        "$@" "$root/$name" "$root/questions.flat" >"$root/$name.log" || fail "$name: $(cat "$root/$name.log")"
    done
}

packaging/generate.py --check
packaging/versions.py "$version"
names_missing
names_crates
rejects_stale
install_and_remove
if ! why=$(packaging/tools.sh --static "${CC:-cc}" git dpkg-deb 2>&1); then
    echo "packaging: no release is tried; $why"
    exit
fi
arches=x86_64 static=yes
# A gate that proved both programs left their object files, which are copied; nothing is proved again here.
if [ -f crates/ranges/out/ranges.o ] && [ -f crates/npmver/out/npmver.o ]; then make -s x86_64; fi
if ! make -q x86_64; then
    static=
    echo 'packaging: make x86_64 was not run, so no static program is tried, and nothing for arm64'
elif ! make -q aarch64 || ! has aarch64-linux-gnu-gcc; then
    echo 'packaging: make aarch64 was not run, so nothing for arm64 is tried'
elif ! has qemu-aarch64; then
    echo 'packaging: no qemu-aarch64 (Debian package qemu-user), so nothing for arm64 is tried'
else
    arches='x86_64 aarch64'
fi
if [ -n "$static" ]; then has_arm64_calls; fi
release_twice
try_sources
try_tarball x86_64 "${CC:-cc}"
try_packages
try_debian
if [ "$arches" != x86_64 ]; then
    try_tarball aarch64 aarch64-linux-gnu-gcc qemu-aarch64 -L /usr/aarch64-linux-gnu
    try_questions qemu-aarch64 -L /usr/aarch64-linux-gnu
fi
echo "packaging: a release for $arches was made twice, with the same bytes, and tried"
