# The library, the listing program, the example host and the tests.
#
#   make            the library, the listing program and the manual pages
#   make example    the library and the example host, which is run
#   make check      the gate: all proofs, and the tests that take minutes
#   make check-long the long tests, which take longer
#   make test-c     the tests in C, the header as C99 and C++, the example
#   make test-rust  the comparison with a program in Rust; COMPARE=sectors for
#                   its part on sectors, COMPARE=maps and COMPARE=sets for the
#                   long ones
#   make test-fuzz  a bounded run of the fuzzer, and that it finds faults
#   make fuzz       a longer run, of FUZZ_TIME seconds
#   make bench      the benchmark
#   make install    installs what `make` has built; PREFIX, DESTDIR
#   make uninstall  removes what install has put there; the same PREFIX, DESTDIR
#   make clean      removes all that was made: build/ and what the prover keeps
#
# All that is made here goes to build/. The prover keeps its own in each crate's
# folder out/, from which the archive and the listing program are copied.

CC = cc
CXX = c++
CFLAGS = -std=c99 -O2 -Wall -Wextra -Wpedantic
BUILD = build

# The version is the header's, and its date that of its entry in CHANGES.md.
VERSION := $(shell sed -n 's/^.define RAID2D_VERSION_STRING *"\(.*\)"/\1/p' include/raid2d.h)
DATE := $(shell sed -n 's/^.. $(VERSION), //p' CHANGES.md)

# The archive that C programs are linked with. `make test-c LIB=other.a` tests
# another one.
LIB = $(BUILD)/libraid2d.a

HEADER = include/raid2d.h
PROVED_SOURCES = crates.txt $(shell find crates -type f -not -path '*/must-fail/*' -not -path '*/out/*')
STRICT = -Wall -Wextra -Wpedantic -Werror -Iinclude -fsyntax-only

# How long the fuzzer runs in `make fuzz` and `make check-long`, in seconds.
FUZZ_TIME = 600

# The listing program and the manual pages, which are made from the header.
LISTING = $(BUILD)/list_repairs
MANUAL = $(BUILD)/man/man3/raid2d.3
open := (
FUNCTIONS := $(shell sed -n 's/^[a-z].*[ *]\(raid2d_[a-z0-9_]*\)$(open).*/\1/p' $(HEADER))

.PHONY: all lib manual example check check-long test-c test-rust test-fuzz fuzz \
    bench install uninstall clean

all: lib $(LISTING) manual

lib: $(BUILD)/libraid2d.a

manual: $(MANUAL)

$(BUILD)/libraid2d.a: $(PROVED_SOURCES)
	cd crates/raid2d && rt lib
	mkdir -p $(BUILD)
	cp crates/raid2d/out/libraid2d.a $@

# After the archive, since the two stand on the same crates.
$(BUILD)/list_repairs: $(PROVED_SOURCES) | $(BUILD)/libraid2d.a
	cd crates/list_repairs && rt run </dev/null
	mkdir -p $(BUILD)
	cp crates/list_repairs/out/list_repairs $@

$(MANUAL): man/pages.awk man/list_repairs.1 README.md CHANGES.md $(HEADER)
	rm -rf $(BUILD)/man
	mkdir -p $(BUILD)/man/man1 $(BUILD)/man/man3
	sed -e 's/@VERSION@/$(VERSION)/' -e 's/@DATE@/$(DATE)/' man/list_repairs.1 >$(BUILD)/man/man1/list_repairs.1
	awk -v out=$(BUILD)/man/man3 -v version=$(VERSION) -v date=$(DATE) -f man/pages.awk README.md $(HEADER)

$(BUILD)/host: examples/host.c $(HEADER) $(LIB)
	mkdir -p $(BUILD)
	$(CC) $(CFLAGS) -Iinclude -o $@ examples/host.c $(LIB)

example: $(BUILD)/host
	$(BUILD)/host

check:
	bash .ci/run

check-long: $(LIB)
	FUZZ_TIME=$(FUZZ_TIME) bash tests/long $(LIB)

# tests/c/header.c uses everything the header defines. What prints the count
# comes last.
test-c: $(BUILD)/host
	$(CC) -std=c99 $(STRICT) tests/c/header.c
	$(CXX) -x c++ -std=c++98 $(STRICT) tests/c/header.c
	$(CXX) -x c++ -std=c++17 $(STRICT) tests/c/header.c
	$(BUILD)/host | diff examples/host.expected -
	CC="$(CC)" sh tests/c/run $(LIB) guards before behind clang gcc-sanitizers

test-rust: $(LIB)
	RAID2D_LIB=$(abspath $(LIB)) cargo run --release --offline \
	    --manifest-path tests/rust/Cargo.toml --target-dir $(BUILD)/rust -- $(COMPARE)

test-fuzz: $(LIB)
	sh tests/fuzz/wrong
	sh tests/fuzz/run $(LIB)

fuzz: $(LIB)
	sh tests/fuzz/run $(LIB) $(FUZZ_TIME)

bench: $(LIB)
	$(MAKE) -C bench LIB=$(abspath $(LIB)) BUILD=$(abspath $(BUILD)/bench)

PREFIX = /usr/local
prefix = $(PREFIX)
exec_prefix = $(prefix)
bindir = $(exec_prefix)/bin
includedir = $(prefix)/include
libdir = $(exec_prefix)/lib
datarootdir = $(prefix)/share
mandir = $(datarootdir)/man
docdir = $(datarootdir)/doc/raid2d
pkgconfigdir = $(libdir)/pkgconfig
INSTALL = install
INSTALL_PROGRAM = $(INSTALL)
INSTALL_DATA = $(INSTALL) -m 644

# `make install LIB=other.a` installs another archive, and likewise with
# LISTING. Folders that install makes are noted in build/folders; uninstall
# removes those of them that are then empty, and notes the others again.
install: $(LIB) $(LISTING) $(MANUAL)
	@mkdir -p $(BUILD)
	@made() { [ -d "$$1" ] || { made "$$(dirname "$$1")" && mkdir -m 755 "$$1" && \
	    echo "$$1" >>$(BUILD)/folders; }; }; \
	for folder in "$(bindir)" "$(includedir)" "$(libdir)" "$(pkgconfigdir)" \
	    "$(mandir)/man1" "$(mandir)/man3" "$(docdir)"; do made "$(DESTDIR)$$folder" || exit; done
	sh raid2d.pc.sh "$(VERSION)" "$(prefix)" "$(libdir)" "$(includedir)" "$(pkgconfigdir)" >$(BUILD)/raid2d.pc
	$(INSTALL_DATA) $(LIB) "$(DESTDIR)$(libdir)/libraid2d.a"
	$(INSTALL_DATA) $(HEADER) "$(DESTDIR)$(includedir)/raid2d.h"
	$(INSTALL_DATA) $(BUILD)/raid2d.pc "$(DESTDIR)$(pkgconfigdir)/raid2d.pc"
	$(INSTALL_PROGRAM) $(LISTING) "$(DESTDIR)$(bindir)/list_repairs"
	$(INSTALL_DATA) $(BUILD)/man/man1/* "$(DESTDIR)$(mandir)/man1"
	$(INSTALL_DATA) $(BUILD)/man/man3/* "$(DESTDIR)$(mandir)/man3"
	$(INSTALL_DATA) docs/SPECIFICATION.md CHANGES.md "$(DESTDIR)$(docdir)"

uninstall:
	rm -f "$(DESTDIR)$(libdir)/libraid2d.a" "$(DESTDIR)$(includedir)/raid2d.h" \
	    "$(DESTDIR)$(pkgconfigdir)/raid2d.pc" "$(DESTDIR)$(bindir)/list_repairs" \
	    "$(DESTDIR)$(mandir)/man1/list_repairs.1" "$(DESTDIR)$(mandir)/man3/raid2d.3" \
	    "$(DESTDIR)$(docdir)/SPECIFICATION.md" "$(DESTDIR)$(docdir)/CHANGES.md"
	for name in $(FUNCTIONS); do rm -f "$(DESTDIR)$(mandir)/man3/$$name.3"; done
	@[ ! -f $(BUILD)/folders ] || { sort -ru $(BUILD)/folders | while IFS= read -r folder; do \
	    rmdir "$$folder" 2>/dev/null || [ ! -d "$$folder" ] || echo "$$folder"; done >$(BUILD)/left; \
	    mv $(BUILD)/left $(BUILD)/folders; }

clean:
	rm -rf $(BUILD) crates/*/out
