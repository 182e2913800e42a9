#!/bin/sh
# Builds the extension over the C library, installs it into a copy of PostgreSQL below a temporary folder, and tests it in a server of its own,
# which listens on a socket there and nowhere else: `make installcheck` in databases of three encodings, and with parallel workers, then what
# storage.sql asks, a dump that is restored, an update to a next version, pg_upgrade, the setting, random matches (check.py), a session that
# runs out of memory, and calls by the million, whose memory must stay. It stops at the first failure.
#
# usage: test.sh FOLDER    FOLDER has lib/libdeno_semver.a and include/deno_semver/semver.h, as make install makes them; a server doesn't run as root, so then
# it runs as the user postgres
set -e
postgres=$(cd "$(dirname "$0")" && pwd)
library=$(cd "$1" && pwd)
. "$postgres/server.sh"

query() { # DATABASE SQL [-c SQL]..
    asked_of=$1
    shift
    "$bin/psql" -XqAt -v ON_ERROR_STOP=1 -d "$asked_of" -c "$@"
}

expect() { # WANTED DATABASE SQL
    got=$(query "$2" "$3")
    [ "$got" = "$1" ] || fail "$3: $got, and not $1"
}

rejects() { # MESSAGE DATABASE SQL
    ! query "$2" "$3" >"$root/error" 2>&1 || fail "$3: no error"
    grep -qx "ERROR:  $1" "$root/error" || fail "$3: $(cat "$root/error"), and not $1"
}

exports_no_calls() {
    exported=$(nm -D --defined-only "$root/extension/deno_semver.so" | grep ' semver_\| rattle_\| sv_' || true)
    [ -z "$exported" ] || fail "the extension exports $exported"
}

# The distribution for PGXN, in $folder.
unpack() {
    run python3 "$postgres/../../packaging/pgxn.py" "$root"
    run python3 -m zipfile -e "$root"/deno_semver-*.zip "$root"
    folder=$(echo "$root"/deno_semver-*/)
    folder=${folder%/}
}

# A build of it in another folder installs the same files, as packages of distributions are built, removes each of them, and is built anew over
# a newer library.
installs_from_elsewhere() {
    mkdir "$root/elsewhere"
    set -- make -s -C "$root/elsewhere" -f "$folder/Makefile" DENO_SEMVER="$library" DESTDIR="$root/elsewhere/installed"
    run "$@" install
    run "$@" -q all
    ! "$@" -q -W "$library/lib/libdeno_semver.a" all || fail 'nothing is built over a newer library'
    for file in "$postgres"/deno_semver*.control "$postgres"/deno_semver--*.sql; do
        cmp "$file" "$root/elsewhere/installed$(pg_config --sharedir)/extension/${file##*/}"
    done
    cmp "$folder/doc/deno_semver.md" "$root/elsewhere/installed$(pg_config --docdir)/extension/deno_semver.md"
    run "$@" uninstall
    left=$(find "$root/elsewhere/installed" ! -type d)
    [ -z "$left" ] || fail "make uninstall leaves $left"
}

# A database in SQL_ASCII has any bytes.
bytes() {
    query contrib_regression 'create extension deno_semver'
    expect t contrib_regression "select semver_try(E'1.2.3\\xff') is null"
    rejects 'invalid byte sequence for type semver' contrib_regression "select E'1.2.3\\xff'::semver"
    rejects 'invalid byte sequence for type semver_range' contrib_regression "select E'1.2.3\\xff'::semver_range"
    [ "$(query postgres 'show server_version_num')" -lt 160000 ] ||
        expect 'f|f' contrib_regression "select pg_input_is_valid(E'1.2.3\\xff', 'semver'), pg_input_is_valid(E'1.2.3\\xff', 'semver_range')"
}

# The files of sql/ in a database of its own.
files() { # ENCODING [OPTION.. of its sessions]
    query postgres "create database contrib_regression template template0 locale 'C' encoding $1"
    PGOPTIONS=$2 make -s -C "$root/extension" installcheck EXTRA_REGRESS_OPTS="--bindir=$bin --use-existing" >"$root/regress.log" 2>&1 ||
        fail "$(cat "$root/regress.log" "$root/extension/regression.diffs")"
    echo "PostgreSQL: $(grep -c '^ok\|\.\.\. ok' "$root/regress.log") files, encoding $1${2:+, with $2}"
    case $1 in *SQL_ASCII*) bytes ;; esac
    query postgres 'drop database contrib_regression'
}

# Those files in each encoding, and with parallel workers wherever a plan may have them.
regress() {
    workers=debug_parallel_query
    [ "$(query postgres 'show server_version_num')" -ge 160000 ] || workers=force_parallel_mode
    files "'UTF8' locale_provider icu icu_locale 'en-US'"
    files "'UTF8' locale_provider icu icu_locale 'en-US'" "-c $workers=regress"
    files "'LATIN1' locale_provider libc"
    files "'SQL_ASCII' locale_provider libc"
}

# The distribution has what builds, installs and tests the extension. pkg-config finds the C library.
distribution() {
    mkdir "$root/pkgconfig"
    sed "s|@PREFIX@|$library|; s|@LIBDIR@|$library/lib|; s|@VERSION@|0|" "$postgres/../../packaging/deno_semver.pc.in" >"$root/pkgconfig/deno_semver.pc"
    PKG_CONFIG_PATH=$root/pkgconfig run make -s -C "$folder" DESTDIR="$root" install
    cmp "$folder/deno_semver.so" "$root$(pg_config --pkglibdir)/deno_semver.so"
    cmp "$folder/doc/deno_semver.md" "$root$(pg_config --docdir)/extension/deno_semver.md"
    query postgres "create database contrib_regression template template0 locale 'C' locale_provider libc"
    PGOPTIONS= make -s -C "$folder" installcheck EXTRA_REGRESS_OPTS="--bindir=$bin --use-existing" >"$root/regress.log" 2>&1 ||
        fail "$(cat "$root/regress.log" "$folder/regression.diffs")"
    query postgres 'drop database contrib_regression'
    echo "PostgreSQL: built, installed and tested from $(basename "$root"/deno_semver-*.zip)"
}

# Bytes that have no UTF-8 are no version, and no error.
without_utf8() {
    query postgres "create database odd template template0 locale 'C' locale_provider libc encoding 'WIN1252'"
    query odd 'create extension deno_semver'
    expect t odd "select semver_try(chr(129)) is null and semver_try('1.0.0-' || chr(129)) is null and semver_try('1.0.0-rc.1') = '1.0.0-rc.1'"
    rejects 'invalid byte sequence for type semver' odd "select chr(129)::semver"
    query postgres 'drop database odd'
    # There is no conversion between this encoding and UTF-8, and ASCII needs none.
    query postgres "create database odd template template0 locale 'C' locale_provider libc encoding 'MULE_INTERNAL'"
    query odd 'create extension deno_semver'
    expect '^1.2|t' odd "select '^1.2'::semver_range, '^1.2'::semver_range @> '1.3.0'"
    rejects 'invalid input syntax for type semver: "1.2"' odd "select '1.2'::semver"
    query postgres 'drop database odd'
}

# ---- what is stored, in the database of this name

version="select extversion from pg_extension where extname = 'deno_semver'"
every="select md5(string_agg(t::text, ',' order by t::text)) from kept t"

store() {
    query postgres 'create database stored'
    "$bin/psql" -Xq -v ON_ERROR_STOP=1 -d stored -v folder="$PGHOST" <"$postgres/storage.sql" >"$root/stored" 2>&1 || fail "$(cat "$root/stored")"
    diff "$postgres/storage.out" "$root/stored" >&2 || fail 'storage.sql prints other rows (> printed, < wanted)'
}

# From PostgreSQL 18 on a library says what it is.
name_library() {
    [ "$(query postgres 'show server_version_num')" -lt 180000 ] ||
        expect "deno_semver|$(query stored "$version")" stored "load 'deno_semver'; select module_name, version from pg_get_loaded_modules() where module_name = 'deno_semver'"
}

# What is dumped is restored, in text and in PostgreSQL's own format.
dump() {
    for format in plain custom; do
        query postgres 'create database restored'
        "$bin/pg_dump" -Fc -d stored >"$root/dump"
        if [ $format = plain ]; then
            "$bin/pg_dump" -d stored | "$bin/psql" -Xq -v ON_ERROR_STOP=1 -d restored >/dev/null
        else
            "$bin/pg_restore" -e -d restored "$root/dump"
        fi
        expect "$(query stored "$every")" restored "$every"
        for database in stored restored; do "$bin/pg_dump" -s -d $database | grep -v restrict >"$root/$database.sql"; done
        cmp "$root/stored.sql" "$root/restored.sql"
        query postgres 'drop database restored'
    done
    echo "PostgreSQL: version $(query stored "$version") dumped and restored"
}

# A next version, made as README.md says. The database is updated, and what is stored stays.
update() {
    before=$(query stored "$version; $every")
    sed -i "s/^default_version.*/default_version = 'next'/" "$root/extension/deno_semver.control"
    echo "CREATE FUNCTION semver_added(semver) RETURNS text LANGUAGE sql AS 'SELECT \$1::text';" \
        >"$root/extension/deno_semver--$(query stored "$version")--next.sql"
    build install
    query stored 'alter extension deno_semver update'
    expect 1.0.0+b stored "select semver_added(max(version)) from kept where version <@ '1.0.0'"
    expect "$(echo "$before" | sed '1s/.*/next/')" stored "$version; $every"
}

# The files of this server are taken by another one, as where PostgreSQL itself gets a new version.
upgrade() {
    before=$(query stored "$every")
    run as_owner "$bin/pg_ctl" -D "$root/data" -w stop
    mv "$root/data" "$root/old"
    initialize
    cd "$root/socket"
    run as_owner "$bin/pg_upgrade" -b "$bin" -B "$bin" -d "$root/old" -D "$root/data" -s "$PGHOST" -U postgres
    cd "$postgres"
    start -c autovacuum=off
    expect "$before" stored "$every"
    expect 11 stored 'select * from checked'
    echo 'PostgreSQL: upgraded by pg_upgrade'
}

# The limit of versions is the server's, in its file of settings: no session sets another one, also before the library is there.
limit() {
    long="select length(('1.0.0-' || repeat('a', 300))::semver::text)"
    rejects 'string is too long for type semver (306 bytes, maximum 256)' stored "set deno_semver.max_length = 400; $long"
    rejects 'parameter "deno_semver.max_length" cannot be changed now' stored "select semver_try('1.0.0'); set deno_semver.max_length = 400"
    echo 'deno_semver.max_length = 400' >>"$root/data/postgresql.conf"
    run as_owner "$bin/pg_ctl" -D "$root/data" -w restart -o "-k $PGHOST -c listen_addresses= -c fsync=off -c autovacuum=off"
    expect 306 stored "$long"
    # A setting of ALTER SYSTEM waits for a reload.
    query stored "load 'deno_semver'" -c 'alter system set deno_semver.max_length = 500'
    expect 400 stored "load 'deno_semver'; show deno_semver.max_length"
    query stored 'select pg_reload_conf()' >/dev/null
    query stored 'select pg_sleep(1)' >/dev/null
    expect 500 stored "load 'deno_semver'; show deno_semver.max_length"
}

# The example, whose lines are those of other languages.
resolve() {
    head -n 3 "$postgres/../../examples/resolved.txt" >"$root/wanted"
    "$bin/psql" -XqAt -v ON_ERROR_STOP=1 -d stored <"$postgres/../../examples/resolve.postgres.sql" | diff "$root/wanted" - ||
        fail 'the example has another answer'
}

# The examples of docs/DATABASES.md.
page() {
    query postgres 'create database page'
    query page 'create extension deno_semver'
    python3 "$postgres/../page.py" PostgreSQL "$bin/psql" -Xq -d page
    query postgres 'drop database page'
}

# ---- a session that is asked one question after another

session() { # DATABASE OPTION.. of psql
    database=$1
    shift
    rm -f "$root/asked" "$root/told"
    mkfifo "$root/asked" "$root/told"
    "$bin/psql" -XqAt "$@" -d "$database" <"$root/asked" >"$root/told" 2>"$root/errors" &
    exec 3>"$root/asked" 4<"$root/told"
    tell 'select pg_backend_pid();'
    pid=$answer
}

tell() { # SQL
    echo "$1" >&3
    read -r answer <&4 || fail "$1: $(cat "$root/errors")"
}

end_session() {
    exec 3>&- 4<&-
    wait
}

memory() { # KIND
    awk "/^$1:/ { print \$2 }" "/proc/$pid/status"
}

# The address space of a session may grow, by more each time, until there is an answer. Before that memory runs out, also in the library, whose error
# has no detail, and the next question is answered.
run_out() {
    failed=0
    for growth in $(seq 256 256 65536); do
        session stored
        tell "select '1.2.3' <@ semver_range '^1';"
        as_owner prlimit --pid "$pid" --as=$((1024 * ($(memory VmSize) + growth)))
        echo "select length(repeat('1 || ', 10000)::semver_range::text);" >&3
        tell "select '1.2.3' <@ semver_range '^1';"
        end_session
        [ "$answer" = t ] || break
        [ "$(head -n 1 "$root/errors")" = 'ERROR:  out of memory' ] || fail "without memory the error is $(cat "$root/errors")"
        grep -q DETAIL "$root/errors" || failed=$((failed + 1))
    done
    [ "$answer" = 50000 ] || fail "after an error the answer is $answer"
    [ $failed -gt 0 ] || fail 'memory runs out nowhere in the library'
    echo "PostgreSQL: out of memory $((growth / 256 - 1)) times, $failed in the library, and then an answer"
}

# Ten million calls, ranges that are compared and sorted, and errors that are caught, in one session, whose memory may grow by four megabytes.
repeat() {
    session stored -v ON_ERROR_STOP=1
    # PostgreSQL keeps what a series returns, so a long one is many short ones.
    calls="select sum(count) from generate_series(1, %s), lateral (select count(*) from generate_series(1, 100000) n where semver_matches(case n %% 2 when 0 then '^1' else '>=1.2.3-a' end, '1.2.3') and '1.2.3-a+b'::text::semver > '1.2.3-a') c"
    ranges="select count(*) from generate_series(1, %s) n where ('^' || n)::semver_range < '>=0.1' and ('^' || n)::semver_range = ('>=' || n || '.0.0 <' || n + 1)::semver_range"
    errors="do \$\$ declare n int; begin for n in 1..%s loop begin perform ('1.2.3.' || n)::semver; exception when others then null; end; begin perform ('^1.2.3.' || n)::semver_range; exception when others then null; end; begin perform semver_matches('^1.2.3.' || n, '1.2.3'); exception when others then null; end; end loop; end \$\$; select 1"
    sorts="select count(*) from generate_series(1, %s) n, lateral (select count(*) from (select ('^' || m || '.' || n)::semver_range as r from generate_series(1, 100) m order by r offset 0) s) c where count = 100"
    tell "$(printf "$calls;" 2)"
    tell "$(printf "$ranges;" 20000)"
    tell "$(printf "$sorts;" 2000)"
    tell "$(printf "$errors;" 1000)"
    before=$(memory RssAnon)
    tell "$(printf "$calls;" 100)"
    [ "$answer" = 10000000 ] || fail "of ten million calls $answer match"
    tell "$(printf "$ranges;" 200000)"
    [ "$answer" = 200000 ] || fail "of 200,000 pairs of ranges $answer are ordered and equal"
    tell "$(printf "$sorts;" 2000)"
    [ "$answer" = 2000 ] || fail "of 2,000 sorts $answer have each range"
    tell "$(printf "$errors;" 50000)"
    grown=$(($(memory RssAnon) - before))
    end_session
    [ $grown -lt 4096 ] || fail "memory grows by $grown kB"
    echo "PostgreSQL: ten million calls, 400,000 pairs of ranges, 2,000 sorts and 150,000 errors, memory grows by $grown kB"
}

trap stop EXIT
trap 'exit 1' INT TERM
install
exports_no_calls
unpack
installs_from_elsewhere
initialize
start -c autovacuum=off
regress
distribution
without_utf8
store
name_library
dump
update
dump
upgrade
limit
python3 "$postgres/check.py" "$bin/psql"
resolve
page
run_out
repeat
