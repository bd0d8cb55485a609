# make test        every test: the proofs, must-fail edits and stored runs, the comparison with the Rust original, the runs of emdfcheck, emdf and the panel
# make emdfcheck   proves and builds target/bin/emdfcheck
# make lib         proves and builds $(LIBRARY), for include/emdf.h
# make trials      proves and builds, beside the library, the calls that only tests/differential makes
# make emdf        builds target/bin/emdf, a program in C that inspects and edits carriers, on the proved library
# make panel       builds target/bin/panel, an example of a host in C, on the proved library
# make install     puts headers, library, emdf.pc, the names, emdf with its man page and NOTICE under PREFIX
# make long        the comparison with the Rust original at its long length, and the panel on the longest carrier
# make bench       what the library's calls cost, beside the Rust original, and the aims reached
# make fuzz        the library's calls fuzzed for a minute, after the fuzzer's self-check
# make threads     the library's calls from eight threads
# make stack       the stack that each call takes
# make peer        carriers read by emdf and by MediaInfo, where that is installed
.PHONY: test emdfcheck lib trials emdf panel install long bench fuzz threads stack peer
# Two runs of rt in one crate wait for each other.
.NOTPARALLEL:

LIBRARY = target/staticlib/libemdf_host.a
CFLAGS = -O2
COMPILE = $(CC) $(CFLAGS) -std=c99 -Wall -Wextra -pedantic -Iinclude
PREFIX = /usr/local

test:
	@tests/all

emdfcheck:
	@tools/program emdfcheck

lib:
	@tools/archive emdf_host_c emdf_host

# The archive of the calls that only the runs make, beside the library.
trials: lib
	@tools/archive emdf_trials emdf_trials

emdf: lib
	@mkdir -p target/bin
	@$(COMPILE) emdf/*.c names/emdf_names.c $(LIBRARY) -o target/bin/emdf

panel: lib
	@mkdir -p target/bin
	@$(COMPILE) examples/panel/panel.c names/emdf_names.c $(LIBRARY) -o target/bin/panel

# The library and the program are installed as they were last built, so that no proof runs as root.
install: $(LIBRARY) target/bin/emdf
	@mkdir -p "$(DESTDIR)$(PREFIX)/bin" "$(DESTDIR)$(PREFIX)/include" "$(DESTDIR)$(PREFIX)/lib/pkgconfig"
	@mkdir -p "$(DESTDIR)$(PREFIX)/share/doc/emdf" "$(DESTDIR)$(PREFIX)/share/emdf" "$(DESTDIR)$(PREFIX)/share/man/man1"
	@cp target/bin/emdf "$(DESTDIR)$(PREFIX)/bin/emdf"
	@cp include/emdf.h include/emdf_names.h "$(DESTDIR)$(PREFIX)/include/"
	@cp names/emdf_names.c "$(DESTDIR)$(PREFIX)/share/emdf/emdf_names.c"
	@cp emdf/emdf.1 "$(DESTDIR)$(PREFIX)/share/man/man1/emdf.1"
	@cp $(LIBRARY) "$(DESTDIR)$(PREFIX)/lib/libemdf.a"
	@sed 's|@PREFIX@|$(PREFIX)|' emdf.pc.in >"$(DESTDIR)$(PREFIX)/lib/pkgconfig/emdf.pc"
	@cp NOTICE "$(DESTDIR)$(PREFIX)/share/doc/emdf/NOTICE"

$(LIBRARY):
	@$(MAKE) lib

target/bin/emdf:
	@$(MAKE) emdf

long: lib
	@tests/differential/run --long
	@tests/panel/run --long

bench: lib
	@tests/differential/run --bench

fuzz: lib
	@tests/fuzz/run --self-check
	@tests/fuzz/run

threads: lib
	@tests/threads/run

stack: lib
	@tests/stack/run

# Nothing is proved and built where there is nothing to compare with.
peer:
	@! command -v mediainfo >/dev/null || $(MAKE) --no-print-directory emdf
	@tests/peer/run
