#!/bin/sh
# Installs what was built in the folder FROM, by default out, below PREFIX, and the libraries in LIBDIR, within DESTDIR. With --check it
# only says whether that can be done, and with --remove it removes what it installed. VERSION is stated at the foot of the manual pages.
# Run at the top, by the Makefile and by dist.sh.
set -e
umask 022
from=${FROM:-out}
LIBDIR=${LIBDIR:-${PREFIX%/}/lib}

check_path() { # NAME PATH
    case $2 in
        *[\"\'\`\$\|\&\\[:space:]]*) echo "$1 may have no whitespace and none of \"'\`\$|&\\, for pkg-config's sake" >&2; exit 2 ;;
        /*) ;;
        *) echo "$1 must be an absolute path, and isn't: '$2'" >&2; exit 2 ;;
    esac
}

# For each file: its mode, what make built or the project has, and where it is installed.
files() {
    share=$PREFIX/share
    cat <<END
755 $from/ranges $PREFIX/bin/ranges
755 $from/npmver $PREFIX/bin/npmver
644 $from/libdeno_semver.so.0 $LIBDIR/libdeno_semver.so.0
644 $from/libdeno_semver.a $LIBDIR/libdeno_semver.a
644 $from/deno_semver.pc $LIBDIR/pkgconfig/deno_semver.pc
644 bindings/c/semver.h $PREFIX/include/deno_semver/semver.h
644 packaging/man/ranges.1 $share/man/man1/ranges.1
644 packaging/man/npmver.1 $share/man/man1/npmver.1
644 packaging/completions/ranges.bash $share/bash-completion/completions/ranges
644 packaging/completions/npmver.bash $share/bash-completion/completions/npmver
644 packaging/completions/_ranges $share/zsh/site-functions/_ranges
644 packaging/completions/_npmver $share/zsh/site-functions/_npmver
644 packaging/completions/ranges.fish $share/fish/vendor_completions.d/ranges.fish
644 packaging/completions/npmver.fish $share/fish/vendor_completions.d/npmver.fish
644 LICENSE $share/doc/deno-semver/LICENSE
644 packaging/THIRD-PARTY $share/doc/deno-semver/THIRD-PARTY
END
    if [ -f "$from/mod_deno_semver.so" ]; then echo "644 $from/mod_deno_semver.so $LIBDIR/mod_deno_semver.so"; fi
}

# Whether a folder can be written, or made.
writable() {
    folder=$1
    while [ ! -e "$folder" ]; do folder=$(dirname "$folder"); done
    [ -d "$folder" ] && [ -w "$folder" ]
}

# Nothing is installed if one of the files can't be.
check() {
    files | while read -r _ _ target; do
        folder=$DESTDIR$(dirname "$target")
        writable "$folder" || { echo "$folder can't be written" >&2; exit 1; }
        [ ! -d "$DESTDIR$target" ] || { echo "$DESTDIR$target is a folder, and a file is to be installed there" >&2; exit 1; }
    done
}

remove() {
    files | while read -r _ _ target; do rm -f "$DESTDIR$target"; done
    rm -f "$DESTDIR$LIBDIR/libdeno_semver.so" "$DESTDIR$LIBDIR/mod_deno_semver.so"
    rmdir "$DESTDIR$PREFIX/share/doc/deno-semver" "$DESTDIR$PREFIX/include/deno_semver" 2>/dev/null || true
}

# The day of the release, of the commit, or today.
dated() {
    date -u -d "@${SOURCE_DATE_EPOCH:-$(git log -1 --format=%ct 2>/dev/null || date +%s)}" +%F
}

copy() {
    files | while read -r _ source _; do [ -f "$source" ] || { echo "$source isn't built: run make" >&2; exit 1; }; done
    files | while read -r mode source target; do
        mkdir -p "$DESTDIR$(dirname "$target")"
        install -m "$mode" "$source" "$DESTDIR$target"
    done
    ln -sf libdeno_semver.so.0 "$DESTDIR$LIBDIR/libdeno_semver.so"
    case $LIBDIR in
        "${PREFIX%/}"/*) libdir="\${prefix}${LIBDIR#"${PREFIX%/}"}" ;;
        *) libdir=$LIBDIR ;;
    esac
    sed -i -e "s|@PREFIX@|$PREFIX|" -e "s|@LIBDIR@|$libdir|" "$DESTDIR$LIBDIR/pkgconfig/deno_semver.pc"
    for page in ranges npmver; do
        sed -i "1s|^\.TH [A-Z]* 1\$|& \"$(dated)\" \"deno_semver ${VERSION:?}\"|" "$DESTDIR$PREFIX/share/man/man1/$page.1"
    done
    echo "Installed ranges, npmver and libdeno_semver below $DESTDIR$PREFIX"
    if [ -z "$DESTDIR" ]; then
        echo "Before a program finds the shared library in $LIBDIR, run ldconfig as root, or set LD_LIBRARY_PATH"
    fi
}

check_path PREFIX "$PREFIX"
check_path LIBDIR "$LIBDIR"
case $1 in
    --check) check ;;
    --remove) remove ;;
    *) check; copy ;;
esac
