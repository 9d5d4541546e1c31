# make            build/: the library, its header and the three programs, ready to take away
# make demo       the field engineer's checklist on samples, Figure 10 from its text to its number, what a time panel shows on the way, what is said of a damaged save, and the programs on every
#                 sample, with what each shows
# make test       the whole test run, which is the gate
# make test-page  the pages of `oolong page`, in a browser: needs chromium, chromium-driver and python3, and is no part of the gate
# make quick      for daily work: what has changed since it was last proved, proved and compiled, and the short tests; no must-fail edit
# make install    under PREFIX (default /usr/local; each place by itself: LIBDIR, INCLUDEDIR, BINDIR, PKGCONFIGDIR, DOCDIR, MANDIR), in DESTDIR if it is given
# make uninstall  removes what `make install` with the same variables has put there, and DOCDIR if nothing else is in it
# make bench      the speed of the calls beside the second implementation's, of Read beside that of a reader made for speed, and of `oolong explore` beside SPIN, if that is there
# make clean      removes build/, and what rt keeps in the crates' out/

PREFIX ?= /usr/local
LIBDIR ?= $(PREFIX)/lib
INCLUDEDIR ?= $(PREFIX)/include
BINDIR ?= $(PREFIX)/bin
PKGCONFIGDIR ?= $(LIBDIR)/pkgconfig
DOCDIR ?= $(PREFIX)/share/doc/liboolong
MANDIR ?= $(PREFIX)/share/man
OBJCOPY ?= objcopy
CFLAGS ?= -O2
CFLAGS += -std=c11 -D_DEFAULT_SOURCE -Wall -Wextra -Werror
SOURCES := crates.txt $(shell find crates -type f -not -path '*/out/*')

# One folder for all that cargo compiles, so that what several of its crates use is compiled once.
export CARGO_TARGET_DIR := $(CURDIR)/build/cargo

# The version stands in the header only. The linker's names of the calls end in its first number.
version_part = $(shell sed -n 's/^.define OOLONG_VERSION_$(1) //p' include/oolong.h)
MAJOR := $(call version_part,MAJOR)
VERSION := $(MAJOR).$(call version_part,MINOR).$(call version_part,PATCH)
CALLS := oolong_read oolong_check oolong_silent oolong_start oolong_offer oolong_run

LIBRARY := build/lib/liboolong.a
NAMES := oolong_read oolong_check
PROGRAMS := $(addprefix build/bin/,$(NAMES))
TOOL := build/bin/oolong
TOOL_SOURCES := $(shell find tools \( -path '*/src/*' -o -name Cargo.toml -o -name build.rs \) -type f)
DOCUMENTS := BLOCK.md EXPLORE.md GRAMMAR.md SCRIPT.md
INSTALLED = $(LIBDIR)/liboolong.a $(INCLUDEDIR)/oolong.h $(addprefix $(BINDIR)/,oolong $(NAMES)) $(PKGCONFIGDIR)/liboolong.pc $(addprefix $(DOCDIR)/,$(DOCUMENTS)) $(MANDIR)/man1/oolong.1

ifneq ($(filter-out clean uninstall,$(or $(MAKECMDGOALS),all)),)
ifneq ($(shell uname -sm),Linux x86_64)
$(error the engine is compiled for x86-64 Linux only, and this is $(shell uname -sm))
endif
endif

# make's lists of files and pkg-config's words end at a space, so no place may have one.
space := $(subst ,, )
ifneq ($(filter install uninstall,$(MAKECMDGOALS)),)
$(foreach place,DESTDIR PREFIX LIBDIR INCLUDEDIR BINDIR PKGCONFIGDIR DOCDIR MANDIR,\
    $(if $(findstring $(space),$($(place))),$(error $(place) is '$($(place))', and no place may have a space in it)))
endif

# A place as liboolong.pc names it: within the prefix, so that the folder can be moved.
in_prefix = $(patsubst $(PREFIX)/%,$${prefix}/%,$(1))

.PHONY: all test test-page quick demo install uninstall bench clean

all: $(LIBRARY) build/include/oolong.h $(PROGRAMS) $(TOOL)

# Archive and programs are made of proved crates: rt proves whatever has changed first. One rule makes all, since rt must not run twice at once.
build/engine.a $(PROGRAMS) &: $(SOURCES)
	@mkdir -p build/bin
	@echo "proving the engine's crates and compiling them: minutes the first time, then only what has changed"
	cd crates/engine_c && rt lib
	for name in $(NAMES); do (cd crates/$$name && rt run <stdin >/dev/null) || exit; done
	cp crates/engine_c/out/libengine_c.a build/engine.a
	for name in $(NAMES); do cp crates/$$name/out/$$name build/bin/; done

$(LIBRARY): build/engine.a include/oolong.h
	@mkdir -p $(@D)
	$(OBJCOPY) $(foreach call,$(CALLS),--redefine-sym $(call)=$(call)_$(MAJOR)) $< $@

build/include/oolong.h: include/oolong.h
	@mkdir -p $(@D)
	cp $< $@

$(TOOL): $(LIBRARY) $(TOOL_SOURCES) include/oolong.h
	@mkdir -p $(@D)
	cargo build --quiet --release --offline --manifest-path tools/oolong/Cargo.toml
	cp $(CARGO_TARGET_DIR)/release/oolong $@

build/bin/words: samples/words.c
	@mkdir -p $(@D)
	$(CC) $(CFLAGS) -o $@ $<

build/tests/%: tests/c/%.c $(wildcard tests/c/*.h) build/include/oolong.h $(LIBRARY)
	@mkdir -p $(@D)
	$(CC) $(CFLAGS) -Ibuild/include -o $@ $< $(LIBRARY) -pthread $(LINKED)

# Counts the library's calls of these.
build/tests/copies: LINKED := -Wl,--wrap=memcpy,--wrap=memmove

demo: $(PROGRAMS) $(TOOL) build/bin/words build/tests/player
	@samples/demo

test:
	@tests/run

test-page: $(TOOL)
	@tests/page

quick:
	@tests/run quick

install: all
	install -d $(addprefix $(DESTDIR),$(dir $(INSTALLED)))
	install -m 644 $(LIBRARY) $(DESTDIR)$(LIBDIR)/
	install -m 644 build/include/oolong.h $(DESTDIR)$(INCLUDEDIR)/
	install -m 755 $(TOOL) $(PROGRAMS) $(DESTDIR)$(BINDIR)/
	install -m 644 $(addprefix docs/,$(DOCUMENTS)) $(DESTDIR)$(DOCDIR)/
	install -m 644 tools/oolong/oolong.1 $(DESTDIR)$(MANDIR)/man1/
	sed 's|@PREFIX@|$(PREFIX)|; s|@LIBDIR@|$(call in_prefix,$(LIBDIR))|; s|@INCLUDEDIR@|$(call in_prefix,$(INCLUDEDIR))|; s|@VERSION@|$(VERSION)|' \
	    include/liboolong.pc.in >$(DESTDIR)$(PKGCONFIGDIR)/liboolong.pc

uninstall:
	rm -f $(addprefix $(DESTDIR),$(INSTALLED))
	rmdir $(DESTDIR)$(DOCDIR) 2>/dev/null || :

bench: $(LIBRARY) $(TOOL)
	cargo run --quiet --release --offline --manifest-path bench/Cargo.toml

clean:
	rm -rf build crates/*/out
