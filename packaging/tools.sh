#!/bin/sh
# Checks that these commands are there, and that the C compilers among them link a program. Names all that is missing in one message, each
# with the Debian package that has it; the status is 1 then.
#
# usage: tools.sh [--static] [--tests] COMMAND..
#
# A compiler may have options: tools.sh 'gcc -m64'.
# With --static the compilers link a program without shared libraries. With --tests it also looks for what the scripts of .ci/run need.
TESTS='rt bash cc ar strip nm objcopy objdump readelf make git python3 tar gzip sha256sum'

package_of() {
    case $1 in
        rt) echo 'the Rattle kit' ;;
        cc) echo "Debian's package gcc" ;;
        ar | strip | nm | objcopy | objdump | readelf) echo "Debian's package binutils" ;;
        aarch64-linux-gnu-ar) echo "Debian's package binutils-aarch64-linux-gnu" ;;
        aarch64-linux-gnu-gcc) echo "Debian's package gcc-aarch64-linux-gnu" ;;
        sha256sum) echo "Debian's package coreutils" ;;
        dpkg-deb) echo "Debian's package dpkg" ;;
        bash | clang | gcc | git | gzip | make | python3 | tar) echo "Debian's package $1" ;;
        *) echo "a package with $1" ;;
    esac
}

misses() { # WHAT PACKAGE
    missing="$missing${missing:+, }$1 ($2)"
}

has() {
    command -v "$1" >/dev/null
}

# Whether the compiler links a program with a header of the C library; further arguments are its options.
links() { # COMPILER OPTION..
    program=$(mktemp)
    printf '#include <stdlib.h>\nint main(void) { return 0; }\n' | "$@" -x c -o "$program" - 2>/dev/null
    status=$?
    rm -f "$program"
    return $status
}

static='' tests='' missing='' seen=' '
while :; do
    case $1 in
        --static) static=-static ;;
        --tests) tests=yes ;;
        *) break ;;
    esac
    shift
done
for command in ${tests:+$TESTS} "$@"; do
    case $seen in *" $command "*) continue ;; esac
    seen="$seen$command "
    if ! has "${command%% *}"; then
        misses "${command%% *}" "$(package_of "${command%% *}")"
        continue
    fi
    case ${command%% *} in
        cc | gcc | clang) library=libc6-dev ;;
        aarch64-linux-gnu-gcc) library=libc6-dev-arm64-cross ;;
        *) continue ;;
    esac
    links $command $static || misses "$command that links a ${static:+static }program" "Debian's package $library"
done
if [ -n "$tests" ]; then
    if has python3 && ! python3 -c 'import ensurepip, venv' 2>/dev/null; then
        misses 'python3 -m venv' "Debian's package python3-venv"
    fi
    if has cc && links cc && ! links cc -fsanitize=address,undefined; then
        misses 'cc with -fsanitize=address,undefined' "Debian's package libgcc-12-dev"
    fi
fi
[ -z "$missing" ] || { echo "missing: $missing" >&2; exit 1; }
