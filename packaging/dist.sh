#!/bin/sh
# Writes a release into the folder DIST: the sources; for each processor of ARCHES a tarball with static programs and the C library, and one with what
# the programs are linked from; a Debian package, a wheel, a crate, the npm package and the page where they are built, SHA256SUMS, and
# RELEASE, which says what it was made of. The same commit and tools give the same bytes. Run by `make dist`, at the top; with GATE empty
# the proofs and mutations aren't run before it, and with STATIC empty the programs aren't static; RELEASE says so.
set -e
umask 022
export LC_ALL=C VERSION="${VERSION:?}"
: "${ARCHES:?}" "${DIST:?}"

fail() {
    echo "$1" >&2
    exit 1
}

# What can stop a release does so before anything long begins.
check() {
    tools=
    for arch in $ARCHES; do
        case $arch in
            x86_64) ;;
            aarch64)
                [ -n "$STATIC" ] || fail 'the programs for aarch64 are static'
                tools='aarch64-linux-gnu-gcc aarch64-linux-gnu-ar' ;;
            *) fail "ARCHES may have x86_64 and aarch64, and not $arch" ;;
        esac
    done
    packaging/tools.sh --static rt "${CC:-cc}" "${AR:-ar}" strip objdump python3 git tar gzip dpkg-deb sha256sum $tools
    packaging/versions.py "$VERSION" || exit 1
    git rev-parse -q --verify HEAD >/dev/null 2>&1 || fail 'A release is made of a commit: run make dist in a clone of the repository'
    [ ! -e "$DIST" ] || [ -f "$DIST/SHA256SUMS" ] || fail "$DIST is there, and isn't a release: remove it first"
    above=$(dirname "$DIST")
    mkdir -p "$above" 2>/dev/null && [ -w "$above" ] || fail "$above can't be written"
}

make_all() {
    if [ -n "$GATE" ]; then ${MAKE:-make} -s out/gate; fi
    ${MAKE:-make} -s all
    said=$(out/ranges --version)
    [ "$said" = "ranges $VERSION" ] || fail "ranges --version says $said, and the Makefile has the version $VERSION"
    for arch in $ARCHES; do
        if [ -n "$STATIC" ]; then ${MAKE:-make} -s "$arch"; fi
    done
}

# The compiler and the archiver of a processor, and the C code below the programs and the calls: the kit's on x86-64, ours on arm64.
parts() { # ARCH
    case $1 in
        x86_64)
            kit=$(dirname "$(rt doc)")/c
            cc=${CC:-cc} ar=${AR:-ar} system=$kit/libos_c.a heap=$kit/liblibc_c.a ;;
        aarch64)
            cc=aarch64-linux-gnu-gcc ar=aarch64-linux-gnu-ar system=out/$1/system.a heap=out/$1/heap.a
            for part in system heap; do
                $cc -O2 -fPIC -Wall -Wextra -Werror -c -o "out/$1/$part.o" "packaging/arm64/$part.c"
                rm -f "out/$1/$part.a"
                $ar rcD "out/$1/$part.a" "out/$1/$part.o"
            done ;;
    esac
}

# Links the static programs and the libraries in out/ARCH.
link() { # ARCH
    parts "$1"
    calls=crates/semver_c/out/libsemver_c.a
    if [ -n "$STATIC" ]; then
        calls=out/$1/libsemver_c.a
        for program in ranges npmver; do $cc -static -s -o "out/$1/$program" "out/$1/$program.o" "$system" "$heap"; done
    else
        mkdir -p "out/$1"
        cp out/ranges out/npmver "out/$1"
    fi
    rm -f "out/$1"/libdeno_semver.*
    ${MAKE:-make} -s OUT="out/$1" CC="$cc" AR="$ar" ARCHIVE="$calls" HEAP="$heap" libraries >/dev/null
}

# Packs a folder of $work as a tarball of this name; the times of its files are the commit's.
pack() { # FOLDER NAME
    find "$work/$1" -exec touch -h -d "@$SOURCE_DATE_EPOCH" {} +
    tar -C "$work" --sort=name --owner=0 --group=0 --numeric-owner --mode=u=rwX,go=rX --format=gnu -cf "$work/$2.tar" "$1"
    gzip -9n <"$work/$2.tar" >"$made/$2.tar.gz"
}

# The sources, as git has them.
sources() {
    name=deno_semver-$VERSION
    git archive --prefix="$name/" HEAD | gzip -9n >"$made/$name.tar.gz"
}

# The pages that README leads to.
pages() {
    git ls-files '*.md' ':!README.md'
}

# A page without the links that lead nowhere in a package, on standard input.
unlinked() {
    sed -E 's/\[([^]]*)\]\(\.\.[^)]*\)/\1/g'
}

# The pkg-config file names its own place, so that a tarball works in any folder.
tarball() { # ARCH
    name=deno_semver-$VERSION-$1-linux
    FROM=out/$1 PREFIX=/ LIBDIR=/lib DESTDIR=$work/$name packaging/install.sh >/dev/null
    sed -i 's|^prefix=.*|prefix=${pcfiledir}/../..|' "$work/$name/lib/pkgconfig/deno_semver.pc"
    rm -r "$work/$name/share/doc"
    cp LICENSE packaging/THIRD-PARTY README.md "$work/$name"
    pages | xargs cp --parents -t "$work/$name"
    if [ -n "$STATIC" ]; then cp packaging/LGPL-2.1 "$work/$name"; fi
    pack "$name" "$name"
}

# What the static programs are linked from, for those who change the GNU C library in them.
objects() { # ARCH
    name=deno_semver-$VERSION-$1-linux-objects
    mkdir "$work/$name"
    cp "out/$1/ranges.o" "out/$1/npmver.o" LICENSE packaging/THIRD-PARTY packaging/LGPL-2.1 "$work/$name"
    cp "$system" "$work/$name/libsystem.a"
    cp "$heap" "$work/$name/libheap.a"
    pack "$name" "$name"
}

# Debian has libraries in a folder of their processor, manual pages compressed, completions of zsh in a folder of its own, and all
# licences in one file.
debian() {
    root=$work/debian share=$work/debian/usr/share
    FROM=out/x86_64 PREFIX=/usr LIBDIR=/usr/lib/x86_64-linux-gnu DESTDIR=$root packaging/install.sh >/dev/null
    gzip -9n "$share"/man/man1/*.1
    mv "$share/zsh/site-functions" "$share/zsh/vendor-completions"
    { cat LICENSE; echo; cat packaging/THIRD-PARTY; } >"$share/doc/deno-semver/copyright"
    rm "$share/doc/deno-semver/LICENSE" "$share/doc/deno-semver/THIRD-PARTY"
    {
        echo "deno-semver ($VERSION-1) unstable; urgency=medium"
        echo
        echo "  * Release $VERSION."
        echo
        echo " -- $(sed -n 's/^Maintainer: //p' packaging/debian/control.in)  $(date -uR -d "@$SOURCE_DATE_EPOCH")"
    } | gzip -9n >"$share/doc/deno-semver/changelog.Debian.gz"
    mkdir "$root/DEBIAN"
    install -D -m 644 packaging/debian/overrides "$share/lintian/overrides/deno-semver"
    if [ -n "$STATIC" ]; then cat packaging/debian/overrides.static >>"$share/lintian/overrides/deno-semver"; fi
    size=$(find "$root/usr" -type f -printf '%s\n' | awk '{ kilobytes += int(($1 + 1023) / 1024) } END { print kilobytes }')
    libc=$(objdump -T "$root"/usr/lib/x86_64-linux-gnu/*.so* "$root/usr/bin/ranges" "$root/usr/bin/npmver" 2>/dev/null |
        grep -o 'GLIBC_[0-9.]*' | sed 's/GLIBC_//' | sort -V | tail -n 1)
    sed -e "s|@VERSION@|$VERSION-1|" -e "s|@SIZE@|$size|" -e "s|@LIBC@|$libc|" packaging/debian/control.in >"$root/DEBIAN/control"
    install -m 644 packaging/debian/triggers "$root/DEBIAN/triggers"
    echo "libdeno_semver 0 deno-semver (>= $VERSION)" >"$root/DEBIAN/shlibs"
    (cd "$root" && find usr -type f -print0 | sort -z | xargs -0 md5sum >DEBIAN/md5sums)
    find "$root" -exec touch -h -d "@$SOURCE_DATE_EPOCH" {} +
    dpkg-deb --root-owner-group -Zgzip --build "$root" "$made/deno-semver_$VERSION-1_amd64.deb" >/dev/null
}

# The crate for Rust, with its library.
rust_crate() {
    name=deno_semver_proved-$VERSION
    mkdir -p "$work/$name/lib/x86_64-unknown-linux-gnu"
    cp -r bindings/rust/src bindings/rust/examples bindings/rust/tests bindings/rust/build.rs bindings/rust/Cargo.toml "$work/$name"
    unlinked <bindings/rust/README.md >"$work/$name/README.md"
    cp LICENSE packaging/THIRD-PARTY "$work/$name"
    cp "$calls" "$heap" "$work/$name/lib/x86_64-unknown-linux-gnu"
    pack "$name" "$name-x86_64-linux"
}

# The npm package and the page, where semver.wasm is there and no older than a source of it.
javascript() {
    if ! without=$(bindings/js/package.py 2>&1); then return; fi
    name=deno_semver-$VERSION-page
    mkdir "$work/$name"
    cp bindings/js/out/page/index.html LICENSE packaging/THIRD-PARTY "$work/$name"
    pack "$name" "$name"
    if ! command -v npm >/dev/null; then
        without='there is no npm'
        return
    fi
    (cd bindings/js/out/package && npm pack --offline --silent --pack-destination "$made" >/dev/null)
}

# The packages of other languages, for x86-64.
packages() {
    bindings/python/make_wheel.py out/x86_64/libdeno_semver.so.0 "$made" >/dev/null
    parts x86_64
    calls=crates/semver_c/out/libsemver_c.a
    if [ -n "$STATIC" ]; then calls=out/x86_64/libsemver_c.a; fi
    rust_crate
    javascript
}

# The version of the GNU C library below the compiler.
glibc() {
    echo '#include <features.h>' | ${CC:-cc} -E -dM - |
        awk '/ __GLIBC__ /{ major = $3 } / __GLIBC_MINOR__ /{ minor = $3 } END { print major "." minor }'
}

release() {
    echo "deno_semver $VERSION for Linux on $(echo "$ARCHES" | sed 's/ / and /')"
    echo
    echo "It was made of the commit $(git rev-parse HEAD) of $(git log -1 --format=%cs)."
    [ -z "$changed" ] || echo 'IT IS NOT THAT COMMIT: there were changes that are not committed.'
    echo "It was proved and built by $(rt version)."
    if [ -n "$GATE" ]; then
        echo "The proofs and mutations (rt ci) ended with: $(cat out/gate)."
    else
        echo 'THE WHOLE GATE (rt ci, with all crates and mutations) WAS NOT RUN BEFORE IT.'
    fi
    case $ARCHES in *aarch64*)
        echo 'For arm64 the programs and the C library were proved once more; what is below them there is trusted: packaging/arm64, in C.'
    esac
    if [ -n "$STATIC" ]; then
        echo "The static programs have parts of the GNU C library $(glibc) in them, whose licence is the LGPL."
        echo 'THIRD-PARTY in each tarball says how to link them with another one.'
    else
        echo 'THE PROGRAMS ARE NOT STATIC.'
    fi
    [ -z "$without" ] || echo "There is no npm package in it: $without."
    case $ARCHES in *x86_64*)
        [ -f out/x86_64/mod_deno_semver.so ] || echo 'There is no extension of SQLite in it: the machine has no sqlite3ext.h.'
    esac
}

check
make_all
SOURCE_DATE_EPOCH=$(git log -1 --format=%ct)
export SOURCE_DATE_EPOCH
changed=$(git status --porcelain)
without=
work=$(mktemp -d)
trap 'rm -rf "$work"' EXIT
made=$work/made
mkdir "$made"
sources
for arch in $ARCHES; do
    link "$arch"
    tarball "$arch"
    if [ -n "$STATIC" ]; then objects "$arch"; fi
done
case $ARCHES in *x86_64*) debian; packages ;; esac
release >"$made/RELEASE"
(cd "$made" && sha256sum -- * >"$work/SHA256SUMS")
rm -rf "$DIST"
mv "$work/SHA256SUMS" "$made"
cp -r "$made" "$DIST"
[ -z "$changed" ] || echo 'There are changes that are not committed, and RELEASE says so.'
[ -z "$without" ] || echo "There is no npm package in the release: $without."
echo "Made a release in $DIST: $(ls "$DIST" | tr '\n' ' ')"
