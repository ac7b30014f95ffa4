# Builds and installs the libraries capnp_canonical and capnp_layout and the program capnp_canon with just a C compiler: gcc or
# clang, for any little-endian machine of 64 bits; capnp_layout for one of 32 bits, too. The C is in generated/, which
# `tools/generated.py` writes from the proved sources.
#
#     make                    the program capnp_canon, and the static library capnp_layout
#     make all                both libraries, static and shared, and the programs capnp_canon, layout_tool, capnpc_layout_rust and
#                             capnpc_layout_c
#     make check              tests them: one message, the C tests, and, if python3 is there, all vectors
#     make check-streams      runs the program over all streams, with python3; this takes minutes
#     make install            installs them below PREFIX, with DESTDIR in front; LIBDIR and others can be set separately
#     make layout             the static library capnp_layout only
#     make FOLDER/PROGRAM     a program of yours, of the one file FOLDER/PROGRAM.c, over both static libraries, which are built first
#     make check-layout, make install-layout    test and install only capnp_layout, both forms
#     make install-python     installs the Python module into PYTHONDIR
#     make wasm               the library for JavaScript, with clang and wasm-ld
#     make crate              packages of the Rust crates, in build/crates/target/package, with cargo 1.90 or later and python3
#
# CC, CFLAGS, CPPFLAGS, LDFLAGS, AR and INSTALL are as usual. If CFLAGS has no option -O, the C is compiled with -O2, since each
# level of a message takes much more stack if it isn't optimised. `make -j` compiles the files of the program side by side.
# STACK_FLAGS is what the compiler has so that no function jumps over the page that guards the stack's end. SHARED_FLAGS makes the
# shared library; set it if your linker is neither Apple's nor takes -soname and --version-script. RUNNER runs a program for
# another machine, for example `qemu-aarch64 -L /usr/aarch64-linux-gnu`.
PREFIX ?= /usr/local
BINDIR ?= $(PREFIX)/bin
LIBDIR ?= $(PREFIX)/lib
INCLUDEDIR ?= $(PREFIX)/include
MANDIR ?= $(PREFIX)/share/man
BASHDIR ?= $(PREFIX)/share/bash-completion/completions
ZSHDIR ?= $(PREFIX)/share/zsh/site-functions
DOCDIR ?= $(PREFIX)/share/doc/capnp_canonical
LAYOUT_DOCDIR ?= $(PREFIX)/share/doc/capnp_layout
PYTHONDIR ?= $(PREFIX)/python
PKGCONFIGDIR ?= $(LIBDIR)/pkgconfig
CMAKEDIR ?= $(LIBDIR)/cmake/capnp_canonical
LAYOUT_CMAKEDIR ?= $(LIBDIR)/cmake/capnp_layout

AR ?= ar
INSTALL ?= install
PYTHON ?= python3
CFLAGS ?= -O2
BUILD ?= build
VERSION := $(shell sed -n 's/^.define CAPNP_CANONICAL_VERSION_TEXT "\(.*\)"/\1/p' bindings/c/capnp_canonical.h)
MAJOR := $(firstword $(subst ., ,$(VERSION)))
# How the files of a shared library end. In SHARED_FLAGS, $* is the library's name.
ifeq ($(findstring apple,$(shell $(CC) -dumpmachine)),)
SHARED = so
SHARED_MAJOR = so.$(MAJOR)
SHARED_FILE = so.$(VERSION)
SHARED_FLAGS = -shared -Wl,-soname,lib$*.$(SHARED_MAJOR) -Wl,--version-script=generated/$*.map
else
# a linker without sonames, which takes a list of names
SHARED = dylib
SHARED_MAJOR = $(MAJOR).dylib
SHARED_FILE = $(VERSION).dylib
SHARED_FLAGS = -dynamiclib -Wl,-install_name,$(LIBDIR)/lib$*.$(SHARED_MAJOR) -Wl,-compatibility_version,$(MAJOR) -Wl,-current_version,$(VERSION) \
	-Wl,-exported_symbols_list,$(BUILD)/$*.names
endif
# A folder below PREFIX, named by the variable of PREFIX in a file; another folder unchanged.
#
#     $(call below,VARIABLE,FOLDER)
below = $(patsubst $(PREFIX)/%,$${$(1)}/%,$(2))
# The path from a folder below PREFIX, which a variable names there, to PREFIX, so that files can be moved; otherwise PREFIX.
#
#     $(call up,VARIABLE,FOLDER)
empty =
up = $(if $(filter $(PREFIX)/%,$(2)),$${$(1)}/$(subst $(empty) $(empty),/,$(patsubst %,..,$(subst /, ,$(2:$(PREFIX)/%=%)))),$(PREFIX))
# Fills in a file in which a variable names PREFIX.
#
#     $(call filled,VARIABLE,VARIABLE OF THE FILE'S FOLDER,FOLDER)
filled = sed -e 's|@PREFIX@|$(call up,$(2),$(3))|' -e 's|@LIBDIR@|$(call below,$(1),$(LIBDIR))|' \
	-e 's|@INCLUDEDIR@|$(call below,$(1),$(INCLUDEDIR))|' -e 's|@PYTHONDIR@|$(call below,$(1),$(PYTHONDIR))|' \
	-e 's|@VERSION@|$(VERSION)|' -e 's|@MAJOR@|$(MAJOR)|' -e 's|@SHARED_FILE@|$(SHARED_FILE)|' -e 's|@SHARED_MAJOR@|$(SHARED_MAJOR)|'
# the flags among these that the compiler takes without a word
tried = $(foreach flag,$(1),$(shell $(CC) -Werror $(flag) -x c -S -o /dev/null /dev/null 2>/dev/null && echo ' $(flag)'))
STACK_FLAGS := $(call tried,-fstack-clash-protection)
LEVEL = $(if $(filter -O%,$(CFLAGS)),,-O2)
ALL_FLAGS = -std=c11 -Ibindings/c $(CPPFLAGS) $(LEVEL) $(CFLAGS) $(STACK_FLAGS)
# Most of the program's C runs once for each file or each report. Compiled with -Og, which takes less than half of the time of
# -O2, no command executes more instructions; the one of streams, which runs once for each message, takes -O1. With gcc, `show`
# takes -Og and the options that bring its instructions within 2 % of -O2, and the rest lacks passes that save no instructions.
SELDOM_FLAGS = $(patsubst -O2,-Og,$(ALL_FLAGS))
STREAMS_FLAGS = $(patsubst -O2,-O1,$(ALL_FLAGS))
ifneq ($(call tried,-fexpensive-optimizations),)
SHOW_FLAGS = $(SELDOM_FLAGS) -fexpensive-optimizations -fstrict-aliasing -fpeephole2 -fcaller-saves -fipa-ra
LAYER_FLAGS = $(ALL_FLAGS) -fno-gcse -fno-schedule-insns2
else
SHOW_FLAGS = $(ALL_FLAGS)
LAYER_FLAGS = $(ALL_FLAGS)
endif

CANONICAL = $(BUILD)/libcapnp_canonical.a $(BUILD)/libcapnp_canonical.$(SHARED_FILE)
LAYOUT = $(BUILD)/libcapnp_layout.a $(BUILD)/libcapnp_layout.$(SHARED_FILE)
GENERATOR = $(patsubst generated/%.c,$(BUILD)/%,$(wildcard generated/capnpc_layout_rust.c generated/capnpc_layout_c.c))
PARTS = $(patsubst generated/%.c,$(BUILD)/%.o,$(wildcard generated/capnp_canon.c generated/capnp_canon_*.c))
SELDOM = $(addprefix $(BUILD)/,capnp_canon.o capnp_canon_diffs.o capnp_canon_inputs.o capnp_canon_io.o capnp_canon_schema.o)
$(PARTS): PART_FLAGS = $(ALL_FLAGS)
$(SELDOM): PART_FLAGS = $(SELDOM_FLAGS)
$(BUILD)/capnp_canon_streams.o: PART_FLAGS = $(STREAMS_FLAGS)
$(BUILD)/capnp_canon_show.o: PART_FLAGS = $(SHOW_FLAGS)
$(BUILD)/capnp_canon_layer.o: PART_FLAGS = $(LAYER_FLAGS)

program: $(BUILD)/capnp_canon layout

all: program $(CANONICAL) $(LAYOUT) $(BUILD)/layout_tool $(GENERATOR)

layout: $(BUILD)/libcapnp_layout.a

$(PARTS): $(BUILD)/%.o: generated/%.c generated/capnp_canon.h
	@mkdir -p $(BUILD)
	$(CC) $(PART_FLAGS) -c -o $@ generated/$*.c

$(BUILD)/capnp_canon: $(PARTS)
	$(CC) $(CFLAGS) $(LDFLAGS) -o $@ $(PARTS)

$(BUILD)/capnp_canonical.o $(BUILD)/capnp_layout.o: $(BUILD)/%.o: generated/%.c $(wildcard bindings/c/*.h)
	@mkdir -p $(BUILD)
	$(CC) $(ALL_FLAGS) -fPIC -c -o $@ generated/$*.c

$(BUILD)/libcapnp_canonical.a $(BUILD)/libcapnp_layout.a: $(BUILD)/lib%.a: $(BUILD)/%.o
	rm -f $@
	$(AR) rcs $@ $(BUILD)/$*.o

$(filter-out %.a,$(CANONICAL) $(LAYOUT)): $(BUILD)/lib%.$(SHARED_FILE): $(BUILD)/%.o generated/%.map
	sed -n 's/^ *\($*_.*\);$$/_\1/p' generated/$*.map >$(BUILD)/$*.names
	$(CC) $(CFLAGS) $(LDFLAGS) $(SHARED_FLAGS) -o $@ $(BUILD)/$*.o
	ln -sf lib$*.$(SHARED_FILE) $(BUILD)/lib$*.$(SHARED_MAJOR)
	ln -sf lib$*.$(SHARED_MAJOR) $(BUILD)/lib$*.$(SHARED)

$(BUILD)/%: generated/%.c
	@mkdir -p $(BUILD)
	$(CC) $(ALL_FLAGS) $(LDFLAGS) -o $@ generated/$*.c

# a program of one file, wherever it is, over both libraries. It is compiled anew each time, since nothing says which headers it
# includes.
%: %.c $(BUILD)/libcapnp_layout.a $(BUILD)/libcapnp_canonical.a anew
	$(CC) -Ibindings/c $(CPPFLAGS) $(LEVEL) $(CFLAGS) $(LDFLAGS) -o $@ $< $(BUILD)/libcapnp_layout.a $(BUILD)/libcapnp_canonical.a

TESTED_BY = BUILD='$(BUILD)' CC='$(CC)' FLAGS='$(CPPFLAGS) $(CFLAGS) $(LDFLAGS)' PYTHON='$(PYTHON)' RUNNER='$(RUNNER)' sh

check test: program $(CANONICAL) check-layout
	$(TESTED_BY) tests/release/check.sh

check-layout: $(LAYOUT)
	$(TESTED_BY) tests/release/layout.sh

check-streams: $(BUILD)/capnp_canon
	$(PYTHON) -B tests/streams/run.py $(BUILD)/capnp_canon

# installs a library: both forms, the files for pkg-config and CMake, and the licence
#
#     $(call installed,NAME,FOLDER FOR CMAKE,FOLDER FOR DOCUMENTS)
define installed
	$(INSTALL) -d $(DESTDIR)$(LIBDIR) $(DESTDIR)$(PKGCONFIGDIR) $(DESTDIR)$(2) $(DESTDIR)$(INCLUDEDIR) $(DESTDIR)$(3)
	$(INSTALL) -m 644 $(BUILD)/lib$(1).a $(DESTDIR)$(LIBDIR)
	$(INSTALL) -m 755 $(BUILD)/lib$(1).$(SHARED_FILE) $(DESTDIR)$(LIBDIR)
	ln -sf lib$(1).$(SHARED_FILE) $(DESTDIR)$(LIBDIR)/lib$(1).$(SHARED_MAJOR)
	ln -sf lib$(1).$(SHARED_MAJOR) $(DESTDIR)$(LIBDIR)/lib$(1).$(SHARED)
	$(call filled,prefix,pcfiledir,$(PKGCONFIGDIR)) bindings/c/$(1).pc.in >$(DESTDIR)$(PKGCONFIGDIR)/$(1).pc
	for it in config config-version; do \
		$(call filled,$(1)_prefix,CMAKE_CURRENT_LIST_DIR,$(2)) -e 's|@NAME@|$(1)|g' bindings/c/cmake/$$it.cmake.in >$(DESTDIR)$(2)/$(1)-$$it.cmake || exit 1; done
	$(INSTALL) -m 644 bindings/c/$(1).h $(DESTDIR)$(INCLUDEDIR)
	$(INSTALL) -m 644 LICENSE $(DESTDIR)$(3)
endef

install: program $(CANONICAL) install-layout
	$(call installed,capnp_canonical,$(CMAKEDIR),$(DOCDIR))
	$(INSTALL) -d $(DESTDIR)$(BINDIR) $(DESTDIR)$(MANDIR)/man1 $(DESTDIR)$(BASHDIR) $(DESTDIR)$(ZSHDIR)
	$(INSTALL) -m 644 bindings/c/capnp_canonical_limits.h $(wildcard bindings/cpp/*.hpp) $(DESTDIR)$(INCLUDEDIR)
	$(INSTALL) -m 755 $(BUILD)/capnp_canon $(DESTDIR)$(BINDIR)
	$(INSTALL) -m 644 share/capnp_canon.1 $(DESTDIR)$(MANDIR)/man1
	$(INSTALL) -d $(DESTDIR)$(MANDIR)/man3
	$(INSTALL) -m 644 share/capnp_canonical.3 $(DESTDIR)$(MANDIR)/man3
	$(INSTALL) -m 644 share/capnp_canon.bash $(DESTDIR)$(BASHDIR)/capnp_canon
	$(INSTALL) -m 644 share/_capnp_canon $(DESTDIR)$(ZSHDIR)

install-layout: $(LAYOUT)
	$(call installed,capnp_layout,$(LAYOUT_CMAKEDIR),$(LAYOUT_DOCDIR))

install-python:
	for it in $$(cd bindings/python && find capnp_canonical* -name '*.py' -o -name py.typed); do \
		$(INSTALL) -d $(DESTDIR)$(PYTHONDIR)/$$(dirname $$it) && $(INSTALL) -m 644 bindings/python/$$it $(DESTDIR)$(PYTHONDIR)/$$it || exit 1; done

wasm:
	sh bindings/js/build.sh generated

crate:
	rm -rf $(BUILD)/crates
	@mkdir -p $(BUILD)
	$(PYTHON) -B tools/rust/package.py $(BUILD)/crates
	cd $(BUILD)/crates && CARGO_TARGET_DIR=target cargo package --workspace --offline --allow-dirty

clean:
	rm -rf $(BUILD)

anew:

.PHONY: all anew check check-layout check-streams clean crate install install-layout install-python layout program test wasm
