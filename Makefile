# make demo      the main job, shown: switches written, the power cut in the middle of one, what comes back;
#                then a checkpoint into the spare partition, with the power cut at every step
# make test      everything that has to hold: rt ci, then the comparisons (tools/gate); .ci/run calls it
# make edits     wrong code that the gate leaves out, refused too (half an hour; not part of the test)
# make bench     our speed beside the second program's and the SSE4.2 instruction's; that of the Rust crate's log
#                beside the C call and a write, and of depot-wal beside reading the file and the library's call
# make install   header, archive, table for flash, depot_wal.pc, programs and man page below PREFIX (/usr/local), which
#                is put below DESTDIR where that is given; make uninstall takes them away again
# make valgrind  the C test and the listing on hostile inputs under valgrind (slow, not part of the test)
# make interop   stock Prometheus reads what the archive writes; installs Debian's prometheus package
#                where it is missing (not part of the test)

export CARGO_TARGET_DIR := $(CURDIR)/build/cargo
ARCHIVE := target/staticlib/libdepot_wal.a
COMMAND := build/cargo/release/depot-wal
CFLAGS := -std=c99 -Wall -Wextra -Wpedantic -Werror -O2 -Iinclude

SOURCES := crates.txt tools/archive tools/programs $(shell find crates -name out -prune -o -type f -print)

PREFIX ?= /usr/local
PLACE := $(DESTDIR)$(abspath $(PREFIX))
# What an installation has; a program is put there if the tree has it.
INSTALLED := include/depot_wal.h include/depot_wal_flash_table.h lib/libdepot_wal.a lib/pkgconfig/depot_wal.pc \
    share/depot_wal/depot_wal_flash_table.c share/man/man1/depot-wal.1 bin/depot-wal bin/depot-wal-list bin/depot-wal-report

.PHONY: demo test edits bench install uninstall valgrind interop clean

demo: $(ARCHIVE)
	@mkdir -p build
	@gcc $(CFLAGS) examples/switch.c $(ARCHIVE) -o build/switch
	@build/switch
	@gcc $(CFLAGS) examples/checkpoint.c $(ARCHIVE) -o build/checkpoint
	@build/checkpoint

test:
	@tools/gate

edits:
	@tools/edits

bench: $(ARCHIVE)
	@cargo build --quiet --release --offline --manifest-path tests/compare/Cargo.toml --bin bench
	@build/cargo/release/bench
	@cargo test --quiet --release --offline --manifest-path rust/depot-wal/Cargo.toml -- --ignored --nocapture | \
	    grep '^depot-wal'

install: $(ARCHIVE) $(COMMAND)
	@install -d $(addprefix $(PLACE)/,$(sort $(dir $(INSTALLED))))
	@install -m 644 include/depot_wal.h flash/depot_wal_flash_table.h $(PLACE)/include
	@install -m 644 $(ARCHIVE) $(PLACE)/lib
	@install -m 644 flash/depot_wal_flash_table.c $(PLACE)/share/depot_wal
	@install -m 644 rust/depot-wal/depot-wal.1 $(PLACE)/share/man/man1
	@install -m 755 $(COMMAND) $(PLACE)/bin
	@for program in list report; do if test -x target/bin/$$program; then \
	    install -m 755 target/bin/$$program $(PLACE)/bin/depot-wal-$$program; fi; done
	@sed -e 's|@PREFIX@|$(abspath $(PREFIX))|' \
	    -e "s|@VERSION@|$$(sed -n 's/^#define DEPOT_WAL_VERSION_STRING "\(.*\)"/\1/p' include/depot_wal.h)|" \
	    tools/depot_wal.pc.in >$(PLACE)/lib/pkgconfig/depot_wal.pc
	@chmod 644 $(PLACE)/lib/pkgconfig/depot_wal.pc
	@echo 'installed below $(PLACE)'

uninstall:
	rm -f $(addprefix $(PLACE)/,$(INSTALLED))
	@rmdir $(PLACE)/share/depot_wal 2>/dev/null || true

valgrind: $(ARCHIVE)
	@mkdir -p build
	@gcc $(CFLAGS) -g tests/c/calls.c tests/c/damage.c $(ARCHIVE) -o build/calls
	@valgrind --quiet --error-exitcode=1 build/calls tests/damage.txt
	@for f in tests/fixtures/*_00000000 $(ARCHIVE) Makefile; do \
	    valgrind --quiet --error-exitcode=1 target/bin/list <$$f >/dev/null || exit 1; done
	@echo 'valgrind: no error'

interop: $(ARCHIVE)
	@mkdir -p build
	@gcc $(CFLAGS) tests/interop/*.c $(ARCHIVE) -o build/interop
	@tests/interop/run build/interop

# Only proved crates are built: the first time this proves the library, which takes minutes; then only what has changed.
$(ARCHIVE): $(SOURCES)
	@echo 'Proving the library and its programs (minutes the first time) ..'
	@tools/archive
	@tools/programs

$(COMMAND): $(ARCHIVE) $(shell find rust -name '*.rs' -o -name 'Cargo.*')
	@cargo build --quiet --release --offline --manifest-path rust/depot-wal/Cargo.toml
	@touch $@

clean:
	rm -rf target build
