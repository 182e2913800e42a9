# A PostgreSQL with the extension, below a temporary folder, $root: a copy of the machine's, over the C library in the folder $library. Its server
# listens on a socket there and nowhere else. As root it runs as the user postgres. For scripts to source, with $postgres, this folder.
root=$(mktemp -d)
bin=$root$(pg_config --bindir)
export PGHOST="$root/socket" PGUSER=postgres PGDATABASE=postgres PGOPTIONS='-c client_min_messages=warning' LC_ALL=C

fail() {
    echo "PostgreSQL: $1" >&2
    exit 1
}

as_owner() {
    if [ "$(id -u)" = 0 ]; then setpriv --reuid postgres --regid postgres --clear-groups "$@"; else "$@"; fi
}

stop() {
    as_owner "$bin/pg_ctl" -D "$root/data" -m immediate stop >/dev/null 2>&1 || true
    rm -rf "$root"
}

run() { # COMMAND.. whose output is printed if it fails
    "$@" >"$root/log" 2>&1 || fail "$(cat "$root/log")"
}

build() { # TARGET.. of the Makefile
    run make -s -C "$root/extension" DENO_SEMVER="$library" DESTDIR="$root" "$@"
}

# PostgreSQL finds its files by where its programs are.
install() {
    chmod 755 "$root"
    for part in bindir pkglibdir sharedir; do
        folder=$root$(pg_config --$part)
        mkdir -p "$folder"
        cp -r "$(pg_config --$part)/." "$folder"
    done
    cp -r "$postgres" "$root/extension"
    build COPT=-Werror
    build install
}

initialize() {
    mkdir -p "$root/data" "$root/socket"
    if [ "$(id -u)" = 0 ]; then chown postgres "$root/data" "$root/socket"; fi
    run as_owner "$bin/initdb" -D "$root/data" -U postgres -A trust -N -E UTF8 --locale=C --locale-provider=icu --icu-locale=en-US
}

start() { # OPTION.. of the server
    as_owner "$bin/pg_ctl" -D "$root/data" -w -l "$root/data/log" -o "-k $PGHOST -c listen_addresses= -c fsync=off $*" start >/dev/null ||
        fail "$(cat "$root/data/log")"
}
