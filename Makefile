# Builds, tests and installs the programs and the C library. `make help` lists the targets.

PREFIX = /usr/local
LIBDIR = $(PREFIX)/lib
DESTDIR =
CC = cc
AR = ar

VERSION := 0.1.0
SONAME := libdeno_semver.so.0
KIT_C = $(shell dirname "$$(rt doc)")/c
# Where the libraries are linked, of which archive and over which heap; packaging/dist.sh gives other values for another processor.
OUT = out
CALLS := crates/semver_c/out/libsemver_c.a
ARCHIVE = $(CALLS)
HEAP = $(KIT_C)/liblibc_c.a
SOURCES := $(shell find crates crates.txt -path '*/out' -prune -o -type f \( -name '*.rt' -o -name '*.antt' -o -name crates.txt \) -print)
# What `make dist` makes, and where. With GATE= it doesn't run rt ci, and with STATIC= it takes the programs of `make install`.
ARCHES = x86_64 aarch64
GATE = yes
STATIC = yes
DIST = out/dist
PROGRAMS := crates/ranges/out/ranges crates/npmver/out/npmver
STRIPPED := out/ranges out/npmver
# SQLite's extension, if the compiler finds SQLite's header.
SQLITE := $(shell $(CC) -E -include sqlite3ext.h -x c /dev/null >/dev/null 2>&1 && echo $(OUT)/mod_deno_semver.so)
LIBRARIES = $(OUT)/$(SONAME) $(OUT)/libdeno_semver.a $(OUT)/deno_semver.pc $(SQLITE)

.PHONY: all libraries x86_64 aarch64 try test dist pgxn install uninstall version help mostlyclean clean tools

all: tools $(STRIPPED) libraries

libraries: $(LIBRARIES)
	@[ -n '$(SQLITE)' ] || echo "There is no extension of SQLite: $(CC) finds no sqlite3ext.h (Debian's package libsqlite3-dev)"

help:
	@echo 'make              prove and build the programs and libraries'
	@echo 'make try          one answer within two minutes, without the proof'
	@echo 'make test         the whole gate: every proof and every test'
	@echo 'make dist         a release in out/dist: sources, tarballs, a Debian package, a wheel, a crate, an npm package, checksums'
	@echo 'make pgxn         the PostgreSQL extension for PGXN, a zip in out'
	@echo 'make install      install below PREFIX (/usr/local), the libraries in LIBDIR (PREFIX/lib), within DESTDIR if it is set'
	@echo 'make uninstall    remove what make install put there'
	@echo 'make version      print the version'
	@echo 'make mostlyclean  remove what was linked, and keep the proofs'
	@echo 'make clean        remove all that was built, the proofs too'

tools:
	@packaging/tools.sh rt '$(CC)' $(AR) strip python3

try:
	@packaging/tools.sh rt
	@echo "ranges explain '>=1.2 <2 || 3.x'"
	@cd crates/ranges && rt try -- explain '>=1.2 <2 || 3.x'

test:
	@packaging/tools.sh --tests
	bash .ci/run

# A program is proved with the crates below it, in silence for minutes at a time, before it is built; after a passed gate it alone is.
crates/ranges/out/ranges: $(SOURCES)
	@echo 'Proving and building ranges: over an hour the first time, with long silences, then only what changed.'
	@packaging/program.py ranges --version
	@touch $@

crates/npmver/out/npmver: $(SOURCES)
	@echo 'Proving and building npmver: a few minutes the first time.'
	@packaging/program.py npmver --version
	@touch $@

out/ranges: crates/ranges/out/ranges
out/npmver: crates/npmver/out/npmver
$(STRIPPED): | out
	@strip -o $@ $<

$(CALLS): $(SOURCES)
	@echo 'Proving and building the C library: a few minutes the first time.'
	@bindings/library.py
	@touch $@

$(sort out $(OUT)):
	@mkdir -p $@

# Only the calls of semver.h are visible.
$(OUT)/$(SONAME): $(ARCHIVE) packaging/libdeno_semver.map | $(OUT)
	$(CC) -shared -s -o $@ -Wl,-soname,$(SONAME) -Wl,--version-script=packaging/libdeno_semver.map \
	    -Wl,--gc-sections,-z,defs,-z,relro,-z,now -Wl,--whole-archive $(ARCHIVE) -Wl,--no-whole-archive '$(HEAP)'

# One archive, with what calls malloc and free.
$(OUT)/libdeno_semver.a: $(ARCHIVE) | $(OUT)
	@rm -f $@
	@printf 'create %s\naddlib %s\naddlib %s\nsave\nend\n' $@ $(ARCHIVE) '$(HEAP)' | $(AR) -MD

# Only what SQLite calls is visible.
$(OUT)/mod_deno_semver.so: bindings/sqlite/mod_deno_semver.c bindings/sqlite/exports.map bindings/c/semver.h $(OUT)/libdeno_semver.a
	$(CC) -O2 -Wall -Wextra -fPIC -shared -s -Ibindings/c -o $@ $< $(OUT)/libdeno_semver.a \
	    -Wl,-soname,mod_deno_semver.so,--version-script=bindings/sqlite/exports.map -Wl,--gc-sections,-z,defs,-z,relro,-z,now

$(OUT)/deno_semver.pc: packaging/deno_semver.pc.in Makefile | $(OUT)
	@sed 's|@VERSION@|$(VERSION)|' $< >$@

# The last line of the proofs and mutations.
out/gate: $(shell git ls-files crates crates.txt HANDLES 2>/dev/null) | out
	@echo 'Proving every crate and trying every mutation: over an hour if nothing is kept.'
	@rt ci >out/gate.log 2>&1 || { tail -5 out/gate.log >&2; exit 1; }
	@tail -1 out/gate.log >$@

# What the release of a processor is linked from. For arm64 the kit proves all of it once more.
out/x86_64/ranges.o out/x86_64/npmver.o out/x86_64/libsemver_c.a \
out/aarch64/ranges.o out/aarch64/npmver.o out/aarch64/libsemver_c.a: $(SOURCES) | $(PROGRAMS) $(CALLS)
	@packaging/object.py $@
	@touch $@

x86_64 aarch64: %: out/%/ranges.o out/%/npmver.o out/%/libsemver_c.a

dist:
	@VERSION='$(VERSION)' ARCHES='$(ARCHES)' GATE='$(GATE)' STATIC='$(STATIC)' DIST='$(DIST)' CC='$(CC)' AR='$(AR)' packaging/dist.sh

pgxn:
	@packaging/pgxn.py $(OUT)

install:
	@PREFIX='$(PREFIX)' LIBDIR='$(LIBDIR)' DESTDIR='$(DESTDIR)' packaging/install.sh --check
	@$(MAKE) --no-print-directory all
	@VERSION='$(VERSION)' PREFIX='$(PREFIX)' LIBDIR='$(LIBDIR)' DESTDIR='$(DESTDIR)' packaging/install.sh

uninstall:
	@PREFIX='$(PREFIX)' LIBDIR='$(LIBDIR)' DESTDIR='$(DESTDIR)' packaging/install.sh --remove

version:
	@echo '$(VERSION)'

mostlyclean:
	rm -rf out bindings/out bindings/js/out bindings/rust/target

clean: mostlyclean
	rm -rf crates/*/out
