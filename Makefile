# Builds, tests, installs and packs a release.
#
#   make              the library, static and shared, the programs and the manual pages, in target/release
#   make check        tests what was built (tests/release); its last line is 'release: all passed'
#   make install      below PREFIX (/usr/local), with libraries in LIBDIR (PREFIX/lib), behind DESTDIR
#   make uninstall    removes what install wrote, with the same PREFIX, LIBDIR and DESTDIR
#   make dist         bauchleton-VERSION.tar.gz: the sources of HEAD
#   make dist-bin     bauchleton-VERSION-linux-x86_64.tar.gz: what install writes, for machines without rt; works wherever it is unpacked
#   make deb          three Debian packages
#   make clean        removes target/release; what rt keeps is in the folders crates/*/out
#
# Needs rt, a C compiler with its binutils, and python3; dist needs git, deb dpkg-deb. What is missing is told. The same sources give the same bytes.
# rt proves whatever it builds and is not proved yet. The gate is .ci/run.

VERSION := $(shell sed -n 's/.*BAUCHLETON_VERSION_TEXT "\(.*\)"/\1/p' include/bauchleton.h)
# The shared library's name changes with the first number of the release: docs/RELEASES.md.
MAJOR := $(firstword $(subst ., ,$(VERSION)))
SONAME := libbauchleton.so.$(MAJOR)
SHARED := libbauchleton.so.$(VERSION)

PREFIX ?= /usr/local
BINDIR ?= $(PREFIX)/bin
LIBDIR ?= $(PREFIX)/lib
INCLUDEDIR ?= $(PREFIX)/include
MANDIR ?= $(PREFIX)/share/man
DOCDIR ?= $(PREFIX)/share/doc/bauchleton
PC_PREFIX ?= $(PREFIX)
DESTDIR ?=

ifeq ($(origin CC),default)
CC := gcc
endif
CFLAGS ?= -O2
CPPFLAGS ?=
LDFLAGS ?=
INSTALL ?= install
RT ?= rt
PYTHON ?= python3
OUT := target/release

# In Rattle; and tools in C over the library.
PROVED := bauchleton-frame bauchleton-mend bauchleton-makekit
TOOLS := bauchleton-kit bauchleton-waterfall
PROGRAMS := $(PROVED) $(TOOLS)
DOCS := README.md NEWS.md docs/REFERENCE.md docs/PROMISES.md docs/RELEASES.md docs/BENCH.md docs/SPEED.md docs/m72.svg docs/m72.csv
EXAMPLES := examples/first.c examples/bench.c examples/bench.txt
LICENCE := $(firstword $(wildcard LICENSE) release/no-licence.txt)
HEADER := include/bauchleton.h
HEADER_PY = $(PYTHON) -B tools/header.py $(HEADER)

# $(call needs,TOOL,WHAT FOR): stops where a tool is missing.
needs = @command -v $(firstword $(1)) > /dev/null || { echo 'make: $(firstword $(1)) is missing, $(2)' >&2; exit 1; }

.PHONY: all check install uninstall dist dist-bin deb clean
all: $(OUT)/libbauchleton.a $(OUT)/$(SHARED) $(addprefix $(OUT)/,$(PROGRAMS)) $(OUT)/man/made

# ---- what rt proves and compiles, in the folder out/ of each crate; one waits for the other, since they stand on the same crates

SOURCES := crates.txt $(shell find crates -name out -prune -o \( -name '*.rt' -o -name '*.antt' \) -print)
ARCHIVES := crates/bauchleton/out/libbauchleton.a crates/bauchleton_text/out/libbauchleton_text.a
BUILT := $(foreach name,frame mend makekit,crates/bauchleton_$(name)/out/bauchleton_$(name))
NEEDS_RT = $(call needs,$(RT),the Rattle toolchain; machines without it take what dist-bin packs)

$(ARCHIVES): $(SOURCES)
	$(NEEDS_RT)
	cd $(dir $(@D)) && $(RT) lib

# rt runs what it has built, which then prints its version.
$(BUILT): $(SOURCES)
	$(NEEDS_RT)
	cd $(dir $(@D)) && $(RT) run -- --version
	touch $@

$(lastword $(ARCHIVES)): | $(firstword $(ARCHIVES))
$(firstword $(BUILT)): | $(ARCHIVES)
$(word 2,$(BUILT)): | $(firstword $(BUILT))
$(word 3,$(BUILT)): | $(word 2,$(BUILT))

# ---- the library

# rt's archives have an object each, whose only global names are the exported calls: both objects side by side are the library.
$(OUT)/libbauchleton.a: $(ARCHIVES)
	$(call needs,$(AR),of the binutils)
	rm -rf $@ $(OUT)/objects
	mkdir -p $(OUT)/objects
	cd $(OUT)/objects && for archive in $(abspath $^); do $(AR) x "$$archive" || exit 1; done
	$(AR) rcsD $@ $(OUT)/objects/*.o

$(OUT)/bauchleton.map: $(HEADER) tools/header.py
	$(call needs,$(PYTHON),for the names that the shared library exports)
	mkdir -p $(OUT)
	$(HEADER_PY) map > $@.new
	mv $@.new $@

$(OUT)/$(SHARED): $(OUT)/libbauchleton.a $(OUT)/bauchleton.map
	$(call needs,$(CC),for the shared library)
	$(CC) -shared -o $@ -Wl,-soname,$(SONAME) -Wl,--version-script,$(OUT)/bauchleton.map -Wl,-z,defs -Wl,-z,text -Wl,-z,relro -Wl,-z,now \
	    -Wl,--whole-archive $< -Wl,--no-whole-archive $(LDFLAGS)
	# (no symbolic links in the repository, where rt ci takes none)
	ln -f $@ $(OUT)/$(SONAME)
	ln -f $@ $(OUT)/libbauchleton.so

# ---- the programs, as rt has built them

$(OUT)/bauchleton-frame: crates/bauchleton_frame/out/bauchleton_frame
$(OUT)/bauchleton-mend: crates/bauchleton_mend/out/bauchleton_mend
$(OUT)/bauchleton-makekit: crates/bauchleton_makekit/out/bauchleton_makekit
$(addprefix $(OUT)/,$(PROVED)):
	mkdir -p $(OUT)
	cp $< $@

# ---- the tools: C over the library's calls, tested and not proved

$(OUT)/bauchleton-kit: tools/kit.c tools/common.c tools/lists.c $(OUT)/libbauchleton.a
$(OUT)/bauchleton-waterfall: tools/waterfall.c tools/table.c tools/plot.c tools/common.c tools/lists.c $(OUT)/libbauchleton.a
$(OUT)/bauchleton-waterfall: LIBRARIES := -lm -pthread
$(addprefix $(OUT)/,$(TOOLS)): $(wildcard tools/*.h) $(HEADER)
	$(call needs,$(CC),for the tools)
	mkdir -p $(OUT)
	$(CC) -std=c99 $(CFLAGS) $(CPPFLAGS) -Iinclude -o $@ $(filter %.c %.a,$^) $(LDFLAGS) $(LIBRARIES)

# ---- the manual pages

$(OUT)/man/made: $(HEADER) tools/header.py $(wildcard man/*)
	$(call needs,$(PYTHON),for the manual pages)
	rm -rf $(OUT)/man
	mkdir -p $(OUT)/man
	$(HEADER_PY) pages $(OUT)/man
	for page in man/*; do sed 's/@VERSION@/$(VERSION)/' "$$page" > $(OUT)/"$$page" || exit 1; done
	touch $@

check: all
	tests/release

# ---- installing

# A folder inside PREFIX, as pkg-config's file names it.
inside = $(patsubst $(PREFIX)/%,$${prefix}/%,$(1))

install: all
	$(INSTALL) -d $(addprefix $(DESTDIR),$(BINDIR) $(LIBDIR)/pkgconfig $(INCLUDEDIR) $(addprefix $(MANDIR)/man,1 3 7) $(DOCDIR)/examples)
	$(INSTALL) -m 755 $(addprefix $(OUT)/,$(PROGRAMS)) $(DESTDIR)$(BINDIR)
	$(INSTALL) -m 644 $(HEADER) $(DESTDIR)$(INCLUDEDIR)
	$(INSTALL) -m 644 $(OUT)/libbauchleton.a $(OUT)/$(SHARED) $(DESTDIR)$(LIBDIR)
	ln -sf $(SHARED) $(DESTDIR)$(LIBDIR)/$(SONAME)
	ln -sf $(SONAME) $(DESTDIR)$(LIBDIR)/libbauchleton.so
	sed -e 's|@PREFIX@|$(PC_PREFIX)|' -e 's|@LIBDIR@|$(call inside,$(LIBDIR))|' -e 's|@INCLUDEDIR@|$(call inside,$(INCLUDEDIR))|' \
	    -e 's|@VERSION@|$(VERSION)|' release/bauchleton.pc.in > $(DESTDIR)$(LIBDIR)/pkgconfig/bauchleton.pc
	chmod 644 $(DESTDIR)$(LIBDIR)/pkgconfig/bauchleton.pc
	for section in 1 3 7; do $(INSTALL) -m 644 $(OUT)/man/*.$$section $(DESTDIR)$(MANDIR)/man$$section || exit 1; done
	$(INSTALL) -m 644 $(DOCS) $(DESTDIR)$(DOCDIR)
	$(INSTALL) -m 644 $(EXAMPLES) $(DESTDIR)$(DOCDIR)/examples
	$(INSTALL) -m 644 $(LICENCE) $(DESTDIR)$(DOCDIR)/LICENSE

uninstall:
	rm -f $(addprefix $(DESTDIR)$(BINDIR)/,$(PROGRAMS)) $(DESTDIR)$(INCLUDEDIR)/bauchleton.h
	rm -f $(addprefix $(DESTDIR)$(LIBDIR)/,libbauchleton.a $(SHARED) $(SONAME) libbauchleton.so pkgconfig/bauchleton.pc)
	rm -f $(addprefix $(DESTDIR)$(MANDIR)/,$(patsubst %,man1/%.1,$(PROGRAMS)) $(patsubst %,man3/%.3,$(shell $(HEADER_PY) names)) man7/bauchleton.7)
	rm -f $(addprefix $(DESTDIR)$(DOCDIR)/,$(notdir $(DOCS)) $(EXAMPLES) LICENSE)
	rmdir $(DESTDIR)$(DOCDIR)/examples $(DESTDIR)$(DOCDIR) 2> /dev/null || true

# ---- packing: names sorted, owner 0 and the commit's time, so that the same sources give the same bytes

SOURCE_DATE_EPOCH ?= $(shell git log -1 --format=%ct 2> /dev/null || echo 0)
export SOURCE_DATE_EPOCH
TAR := tar --sort=name --owner=0 --group=0 --numeric-owner --mtime=@$(SOURCE_DATE_EPOCH)
NAME := bauchleton-$(VERSION)

dist:
	$(call needs,git,for the sources of HEAD)
	mkdir -p $(OUT)
	git archive --format=tar --prefix=$(NAME)/ HEAD | gzip -9n > $(OUT)/$(NAME).tar.gz

dist-bin: all
	rm -rf $(OUT)/root
	$(MAKE) install DESTDIR=$(CURDIR)/$(OUT)/root/$(NAME) PREFIX= PC_PREFIX='$$$${pcfiledir}/../..'
	$(TAR) -C $(OUT)/root -c $(NAME) | gzip -9n > $(OUT)/$(NAME)-linux-x86_64.tar.gz
	rm -rf $(OUT)/root

deb: all
	$(call needs,dpkg-deb,for Debian packages)
	release/deb $(OUT) $(VERSION) $(LICENCE)

clean:
	rm -rf $(OUT)
