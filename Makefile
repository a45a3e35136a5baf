# The library, its command-line host, the belt's week, the pusher, the refill, the tests, and the installation.
#
#   make                               the library, if it is missing, not whole or older than crates/, libeco32.so, target/host/eco32 and its page
#   make week                          the library and the belt's week (examples/belt)
#   make pusher                        the library and the pusher that the timer paces (examples/timer)
#   make refill                        the library and the refill that the replacement index leads (examples/refill)
#   make check                         the tests that need no proof, in under a minute
#   make test                          the gate, .ci/run
#   make bench                         the model's speed beside a plain C simulator's and the Rust simulator's; its code at six places
#   make install PREFIX=.. [DESTDIR=..]  headers, libraries, files for pkg-config and CMake, documents, host and its page
#   make uninstall PREFIX=.. [DESTDIR=..]
#   make clean                         away with what make built, the library too

PREFIX = /usr/local
DESTDIR =
BINDIR = $(PREFIX)/bin
INCLUDEDIR = $(PREFIX)/include
LIBDIR = $(PREFIX)/lib
PKGCONFIGDIR = $(LIBDIR)/pkgconfig
CMAKEDIR = $(LIBDIR)/cmake/eco32
MANDIR = $(PREFIX)/share/man
DOCDIR = $(PREFIX)/share/doc/eco32

CFLAGS = -O2
WARNINGS = -Wall -Wextra -Wpedantic -Wconversion
INSTALL = install

# The header alone has the version and the ABI number.
VERSION := $(shell sed -n 's/^\#define ECO32_VERSION "\(.*\)"/\1/p' include/eco32.h)
ABI := $(shell sed -n 's/^\#define ECO32_ABI \([0-9]*\).*/\1/p' include/eco32.h)
LIBRARY = target/staticlib/libeco32.a
LIBRARY_LOG = target/staticlib/libeco32.log
HOST = target/host/eco32
OBJECTS := $(patsubst host/%.c,target/host/%.o,$(wildcard host/*.c))

# libeco32.so.ABI.MINOR.PATCH, libeco32.so.ABI for programs that run, libeco32.so for those that are linked.
SONAME = libeco32.so.$(ABI)
SHARED_NAME = $(SONAME).$(word 2,$(subst ., ,$(VERSION))).$(word 3,$(subst ., ,$(VERSION)))
SHARED = target/shared/$(SHARED_NAME)
MANUAL = target/man/eco32.1
MADE_OF_PROOFS = crates/*/out/lib*.a target/staticlib/lib*.a target/shared/libeco32.so* $(HOST) $(BELT) $(PUSHER) $(REFILL) $(BENCH) $(THREE) $(PLACEMENTS)

# The bench: -O3 for C, as cargo's release profile has it for Rust. BENCH_FLAGS may be --steps N and --rounds N.
BENCH = target/bench/bench
REPLAY = target/bench/replay
THREE = target/bench/refill
BENCH_CFLAGS = -O3
BENCH_FLAGS =
BENCH_RUST = target/bench/rust/release/libeco32_bench.a
PLAIN_OBJECTS = target/bench/plain.o target/bench/record.o
BENCH_OBJECTS = target/bench/bench.o target/bench/images.o $(PLAIN_OBJECTS)
REPLAY_OBJECTS = target/bench/replay.o $(PLAIN_OBJECTS)
THREE_OBJECTS = target/bench/refill.o $(PLAIN_OBJECTS)
PLACEMENTS = $(addprefix target/bench/placed-,0 32 96 208 1056 2100)

# What the library is proved and made of. The directories stand for files that are gone.
PROVED := $(shell find crates.txt crates/*/src crates/*/specs crates/*/proofs 2>/dev/null)

BELT = target/belt
BELT_SOURCES := $(wildcard examples/belt/*.c)
WEEK = examples/belt/belt.rom examples/belt/belt.ram examples/belt/packs.txt examples/belt/cell.txt

# A stroke every 1,000 steps, and 6 strokes.
PUSHER = target/pusher
STROKES = examples/timer/pusher.rom 1000 6

REFILL = target/refill

.PHONY: all week pusher refill check test bench cargo install uninstall clean absolute

all: $(LIBRARY) $(HOST)

# The library holds an object for each crate that exports functions, as rt wrote it into that crate's out/ (tools/library). A library that is not
# whole, or has another object than the one that lies there, is made anew, however new it is.
WHOLE := $(shell tools/library whole && echo yes)
.PHONY: not_whole

# rt itself knows which crates have to be proved again: `rt lib` proves those and the crates that stand on them. A line for each is printed; the rest
# of what rt says is in the log. Where a proof fails no old library stays, static or shared, nor a program that has one in it.
$(LIBRARY): $(PROVED) $(if $(WHOLE),,not_whole)
	@command -v rt >/dev/null || { \
	    echo 'make: rt is not on the PATH. It proves and builds the library. Put the rt of the Rattle kit on the PATH:' \
	        '`rt version` then prints the line of .ci/kit' >&2; exit 2; }
	@mkdir -p $(@D)
	@echo 'rt proves and builds $@, a line for each crate; all that it says is in $(LIBRARY_LOG)'
	@{ tools/library build; echo "status $$?"; } 2>&1 | tee $(LIBRARY_LOG) | awk \
	    '/^rt: chose --jobs [0-9]+ for / { crate = $$NF } \
	    /^logic=(not-)?proved/ { sub(/logic=/, "", $$1); sub(/functions=/, "", $$2); \
	        print crate ": " $$1 ($$1 == "proved" ? ", functions: " $$2 : ""); fflush() } \
	    /^rt: the library / { print; fflush() }'
	@[ "$$(tail -n 1 $(LIBRARY_LOG))" = 'status 0' ] || { rm -f $(MADE_OF_PROOFS); tail -n 20 $(LIBRARY_LOG) | cut -c 1-300 >&2; \
	    echo 'make: $@ is not proved: $(LIBRARY_LOG) has all that rt said' >&2; exit 2; }

# The archive is position-independent: no -no-pie is needed.
$(HOST): $(OBJECTS) $(LIBRARY)
	$(CC) $(CFLAGS) $(LDFLAGS) $(OBJECTS) $(LIBRARY) $(LDLIBS) -o $@

target/host/%.o: host/%.c
	@mkdir -p $(@D)
	$(CC) -std=c11 $(WARNINGS) $(CPPFLAGS) $(CFLAGS) -Iinclude -MMD -MP -c $< -o $@

-include $(OBJECTS:.o=.d) $(BENCH_OBJECTS:.o=.d) target/bench/replay.d target/bench/refill.d

$(BELT): $(BELT_SOURCES) $(wildcard examples/belt/*.h include/*.h) $(LIBRARY)
	@$(CC) -std=c11 $(WARNINGS) $(CPPFLAGS) $(CFLAGS) $(LDFLAGS) -Iinclude $(BELT_SOURCES) $(LIBRARY) $(LDLIBS) -o $@

week: $(BELT)
	@$(BELT) $(WEEK)

$(PUSHER): examples/timer/pusher.c $(wildcard include/*.h) $(LIBRARY)
	@$(CC) -std=c11 $(WARNINGS) $(CPPFLAGS) $(CFLAGS) $(LDFLAGS) -Iinclude $< $(LIBRARY) $(LDLIBS) -o $@

pusher: $(PUSHER)
	@$(PUSHER) $(STROKES)

$(REFILL): examples/refill/refill.c $(wildcard include/*.h) $(LIBRARY)
	@$(CC) -std=c11 $(WARNINGS) $(CPPFLAGS) $(CFLAGS) $(LDFLAGS) -Iinclude $< $(LIBRARY) $(LDLIBS) -o $@

refill: $(REFILL)
	@$(REFILL) examples/refill/refill.rom

check:
	@tests/check

test:
	.ci/run

# Where the same code lies in the program moves its pace by a tenth. So the bench runs again with some bytes before the library's code.
bench: $(BENCH) $(PLACEMENTS)
	$(BENCH) $(BENCH_FLAGS)
	@echo
	@reference/bench/placements $(BENCH_FLAGS) -- $(PLACEMENTS)

# The last three are for Rust's standard library.
$(BENCH): $(BENCH_OBJECTS) $(LIBRARY) $(BENCH_RUST)
	$(CC) $(BENCH_CFLAGS) $(LDFLAGS) $^ -lpthread -ldl -lm -o $@

target/bench/pad-%.o:
	@mkdir -p $(@D)
	printf '.text\n.fill $*\n.section .note.GNU-stack,"",@progbits\n' | $(CC) -c -x assembler - -o $@

target/bench/placed-%: target/bench/pad-%.o $(BENCH_OBJECTS) $(LIBRARY) $(BENCH_RUST)
	$(CC) $(BENCH_CFLAGS) $(LDFLAGS) $(BENCH_OBJECTS) $< $(LIBRARY) $(BENCH_RUST) -lpthread -ldl -lm -o $@

# The refill's firmware on the same three as the bench, for tests/refill.
$(THREE): $(THREE_OBJECTS) $(LIBRARY) $(BENCH_RUST)
	$(CC) $(BENCH_CFLAGS) $(LDFLAGS) $^ -lpthread -ldl -lm -o $@

$(REPLAY): $(REPLAY_OBJECTS)
	$(CC) $(BENCH_CFLAGS) $(LDFLAGS) $^ -o $@

target/bench/%.o: reference/bench/%.c
	@mkdir -p $(@D)
	$(CC) -std=c11 $(WARNINGS) $(CPPFLAGS) $(BENCH_CFLAGS) -Iinclude -MMD -MP -c $< -o $@

# Cargo itself knows what has to be built again.
$(BENCH_RUST): cargo
	cargo build --release --offline --quiet --manifest-path reference/bench/rust/Cargo.toml --target-dir target/bench/rust

all: $(SHARED) $(MANUAL)

# The archive's objects, whole, and nothing beside them: no start files either. It exports what the archive exports. Should one of its calls use
# another, it uses the library's own, as in the archive, and no other that has the name. The file has three names by hard links: rt refuses a
# symbolic link in the tree.
$(SHARED): $(LIBRARY)
	@mkdir -p $(@D)
	$(CC) -shared -nostartfiles $(LDFLAGS) -Wl,-soname,$(SONAME) -Wl,-z,defs -Wl,-Bsymbolic-functions \
	    -Wl,--whole-archive $(LIBRARY) -Wl,--no-whole-archive -o $@
	ln -f $@ target/shared/$(SONAME)
	ln -f $@ target/shared/libeco32.so

# The options are those that the host's help names.
$(MANUAL): man/eco32.1.in man/page.awk include/eco32.h $(HOST)
	@mkdir -p $(@D)
	$(HOST) --help >target/man/help
	awk -v version=$(VERSION) -f man/page.awk target/man/help man/eco32.1.in >$@.new
	mv $@.new $@

# What is installed, without DESTDIR and in quotes.
INSTALLED = '$(BINDIR)/eco32' '$(INCLUDEDIR)/eco32.h' '$(INCLUDEDIR)/eco32_text.h' '$(LIBDIR)/libeco32.a' \
    '$(LIBDIR)/$(SHARED_NAME)' '$(LIBDIR)/$(SONAME)' '$(LIBDIR)/libeco32.so' '$(PKGCONFIGDIR)/eco32.pc' \
    '$(CMAKEDIR)/eco32-config.cmake' '$(CMAKEDIR)/eco32-config-version.cmake' '$(MANDIR)/man1/eco32.1' \
    '$(DOCDIR)/C-API.md' '$(DOCDIR)/CHANGELOG.md'

# eco32.pc says where things are by its prefix, the CMake files by their own place: an installed tree may be moved.
below_prefix = $(subst ^$(PREFIX)/,$${prefix}/,^$(1))
from_cmake = $$(realpath -m -s --relative-to='$(CMAKEDIR)' '$(1)')
FILL = sed -e 's|@PREFIX@|$(PREFIX)|' -e 's|@INCLUDEDIR@|$(patsubst ^%,%,$(call below_prefix,$(INCLUDEDIR)))|' \
    -e 's|@LIBDIR@|$(patsubst ^%,%,$(call below_prefix,$(LIBDIR)))|' -e 's|@VERSION@|$(VERSION)|' \
    -e 's|@SONAME@|$(SONAME)|' -e 's|@SHARED@|$(SHARED_NAME)|' \
    -e "s|@TO_INCLUDE@|$(call from_cmake,$(INCLUDEDIR))|" -e "s|@TO_LIB@|$(call from_cmake,$(LIBDIR))|"

# eco32.pc names the prefix, so it has to hold from any directory.
absolute:
	@case '$(PREFIX)' in /*) ;; *) echo 'make: PREFIX has to be an absolute path' >&2; exit 1 ;; esac

install: absolute all
	$(INSTALL) -d '$(DESTDIR)$(BINDIR)' '$(DESTDIR)$(INCLUDEDIR)' '$(DESTDIR)$(LIBDIR)' '$(DESTDIR)$(PKGCONFIGDIR)' \
	    '$(DESTDIR)$(CMAKEDIR)' '$(DESTDIR)$(MANDIR)/man1' '$(DESTDIR)$(DOCDIR)' target/install
	$(INSTALL) -m 755 $(HOST) '$(DESTDIR)$(BINDIR)/eco32'
	$(INSTALL) -m 644 include/eco32.h include/eco32_text.h '$(DESTDIR)$(INCLUDEDIR)'
	$(INSTALL) -m 644 $(LIBRARY) $(SHARED) '$(DESTDIR)$(LIBDIR)'
	ln -sf $(SHARED_NAME) '$(DESTDIR)$(LIBDIR)/$(SONAME)'
	ln -sf $(SONAME) '$(DESTDIR)$(LIBDIR)/libeco32.so'
	$(FILL) eco32.pc.in >target/install/eco32.pc
	$(FILL) cmake/eco32-config.cmake.in >target/install/eco32-config.cmake
	$(FILL) cmake/eco32-config-version.cmake.in >target/install/eco32-config-version.cmake
	$(INSTALL) -m 644 target/install/eco32.pc '$(DESTDIR)$(PKGCONFIGDIR)'
	$(INSTALL) -m 644 target/install/eco32-config.cmake target/install/eco32-config-version.cmake '$(DESTDIR)$(CMAKEDIR)'
	$(INSTALL) -m 644 $(MANUAL) '$(DESTDIR)$(MANDIR)/man1'
	$(INSTALL) -m 644 docs/C-API.md docs/CHANGELOG.md '$(DESTDIR)$(DOCDIR)'

# The two directories of its own go too, if they are empty. The others stay: others may use them.
uninstall: absolute
	for file in $(INSTALLED); do rm -f '$(DESTDIR)'"$$file" || exit 1; done
	for own in '$(CMAKEDIR)' '$(DOCDIR)'; do rmdir '$(DESTDIR)'"$$own" 2>/dev/null || true; done

clean:
	rm -rf target/staticlib target/host target/bench target/shared target/man target/install crates/*/out/lib*.a
	rm -f $(BELT) $(PUSHER) $(REFILL)
