# make check: the whole test command. make run: the intake program on a shipped cell.
# make lib: the C library; with CPU= or MACHINE= for another processor or machine. make shared: as a shared library.
# make tool: the program dted. make install, uninstall: library, headers, programs and manual pages. make dist: all of it, packed.
# make examples: examples/. make picture: docs/relief.png. make fmt: the layout of the sources.
# make host, fuzz: the library against a second reader and writer in C. make interop: against GDAL, which it installs; no part of
# make check. make bench: the library measured beside plain C and others. make figures: measured and put into docs/.
.PHONY: check run fmt lib shared tool install uninstall dist examples picture host fuzz interop bench figures FORCE
# what a failed command leaves is not taken for made
.DELETE_ON_ERROR:

# ---- words of the caller ----

# of the command line alone: some systems export such names
CPU :=
MACHINE :=

# words stand in lines of make and of the shell as they are: one that would be taken apart there is refused before anything is done
SIGNS := & | ; < > ( ) [ ] { } * ? % \# $$ \ " ' `
taken_apart = $(strip $(filter-out 1,$(words x$($(1))x)) $(foreach sign,$(SIGNS),$(findstring $(sign),$($(1)))))
$(foreach name,PREFIX BINDIR LIBDIR INCLUDEDIR MANDIR DESTDIR ARCHIVE ARCHIVE_V3 INTAKE DIST CELL CPU MACHINE,\
	$(if $(call taken_apart,$(name)),$(error $(name) may have no blank and none of $(SIGNS) in it: '$($(name))')))

check:
	@tools/check

fmt:
	@for crate in crates/*/; do (cd "$$crate" && rt fmt) || exit; done

# ---- what the kit proves and compiles ----

# all that each is proved from, folders too, so that an edited, a new and a removed file are seen
INTAKE_SOURCES := $(shell tools/sources intake_program)
LIBRARY_SOURCES := $(shell tools/sources dted_c)
PLAIN := target/staticlib/libdted.a
PROGRAM := target/bin/intake_program
# both for every x86-64 processor; the kit's own choice is a later one
EVERY := --cpu x86-64

$(PLAIN): $(LIBRARY_SOURCES)
	@tools/prove $@ dted_c $(EVERY)

$(PROGRAM): $(INTAKE_SOURCES)
	@tools/prove $@ intake_program $(EVERY)

# any other cell: make run CELL=path
CELL ?= cells/north_89.dt0

run: $(PROGRAM)
	@tools/intake < $(CELL)

# ---- the archive ----

FOR_MACHINE := $(or $(MACHINE),x86_64)
ifeq ($(MACHINE)$(CPU),)
MADE := $(PLAIN)
else
MADE := target/lib/libdted$(MACHINE:%=-%)$(CPU:%=-%).a
$(MADE): $(PLAIN)
	tools/native $@ $(FOR_MACHINE) $(CPU)
endif

lib: $(MADE)

# what programs are linked with, and what is installed: the archive that is made, or another one, taken as it is without the kit:
# ARCHIVE=path. It is as new as its bytes, so that another archive is seen, and the same one made again is not
LINKED := target/link/libdted.a
$(LINKED): $(if $(ARCHIVE),,$(MADE)) FORCE
	@cmp -s $(or $(ARCHIVE),$(MADE)) $@ || install -D -m 644 $(or $(ARCHIVE),$(MADE)) $@

# ---- what a C compiler makes of it ----

# where CC names none, the compiler for the archive's machine; where that is not the one at hand, tools/x86-64 runs the programs
ifeq ($(origin CC),default)
ifneq ($(shell uname -m),$(FOR_MACHINE))
CC = $(FOR_MACHINE)-linux-gnu-gcc
endif
endif
CFLAGS ?= -O2
# the headers of this tree go before those that CPPFLAGS may lead to
COMPILE = $(CC) -std=c99 -Wall -Wextra -Wpedantic -Iinclude $(CPPFLAGS) $(CFLAGS) $(LDFLAGS)
HEADERS := $(wildcard include/*.h)
VERSION := $(shell cat VERSION)

# while the first number is 0 a changed call raises the second one, so that a program needs both to be its own
SOVERSION := $(basename $(VERSION))
SHARED := target/shared/libdted.so.$(VERSION)

shared: $(SHARED)

# no name but the calls is seen from outside, and none but the C library's is looked for there; it has its three names here by no
# links to names, which rt ci has nowhere in a checkout
$(SHARED): $(LINKED)
	@mkdir -p $(@D)
	@rm -f target/shared/libdted.so*
	@echo '{ global: dted_*; local: *; };' >target/shared/names
	$(CC) $(LDFLAGS) -shared -nostartfiles -Wl,-soname,libdted.so.$(SOVERSION) -Wl,--version-script,target/shared/names -Wl,-z,defs \
		-Wl,--whole-archive $(LINKED) -Wl,--no-whole-archive -o $@
	@ln $@ target/shared/libdted.so.$(SOVERSION)
	@ln $@ target/shared/libdted.so

tool: target/tool/dted

target/tool/dted: $(wildcard tool/*) $(HEADERS) $(LINKED)
	@mkdir -p $(@D)
	$(COMPILE) $(filter %.c,$^) $(LINKED) -lm -o $@

examples: target/examples/judge target/examples/write

target/examples/%: examples/%.c examples/files.h $(HEADERS) $(LINKED)
	@mkdir -p $(@D)
	$(COMPILE) $< $(LINKED) -o $@

picture: target/tool/dted
	tools/x86-64 $< relief cells/terrain.dt0 target/relief.pgm 2
	tools/png 4 <target/relief.pgm >docs/relief.png

# ---- installed ----

PREFIX ?= /usr/local
BINDIR ?= $(PREFIX)/bin
LIBDIR ?= $(PREFIX)/lib
INCLUDEDIR ?= $(PREFIX)/include
MANDIR ?= $(PREFIX)/share/man
PKGDIR := $(LIBDIR)/pkgconfig
CMAKEDIR := $(LIBDIR)/cmake/dted

# the intake program: INTAKE=path, taken as it is, or beside the plain archive the one that is made here; without the kit that one is
# taken where it is there and no source of it is newer
ifeq ($(INTAKE)$(ARCHIVE)$(MACHINE)$(CPU),)
STALE = [ ! -x $(PROGRAM) ] || [ "$$(find $(INTAKE_SOURCES) -prune -newer $(PROGRAM))" ]
OWN_INTAKE := $(shell ! command -v rt >/dev/null && { $(STALE); } || echo $(PROGRAM))
endif
TAKEN_INTAKE := $(INTAKE)$(OWN_INTAKE)

# each function of the headers, but for their own, which end in _, has the library's manual page under its name too
FUNCTIONS := ${shell sed -nE 's/^[A-Za-z][A-Za-z0-9_ *]*[ *](dted_[a-z0-9_]*[a-z0-9])\(.*/\1/p' $(HEADERS)}
FUNCTION_PAGES := $(FUNCTIONS:%=$(MANDIR)/man3/%.3)
PAGES := $(foreach page,$(wildcard man/*.[1-9]),$(MANDIR)/man$(subst .,,$(suffix $(page)))/$(notdir $(page)))
LIBRARIES := $(addprefix $(LIBDIR)/,libdted.a libdted.so libdted.so.$(SOVERSION) libdted.so.$(VERSION))
FILLED := $(PKGDIR)/dted.pc $(PKGDIR)/dted-shared.pc $(CMAKEDIR)/dtedConfig.cmake $(CMAKEDIR)/dtedConfigVersion.cmake
INSTALLED := $(BINDIR)/dted $(BINDIR)/dted-intake $(LIBRARIES) $(HEADERS:include/%=$(INCLUDEDIR)/%) $(FILLED) $(PAGES) \
	$(FUNCTION_PAGES)

under_prefix = $(patsubst $(PREFIX)/%,$${prefix}/%,$(1))
FILL = sed -e 's|@VERSION@|$(VERSION)|g' -e 's|@SOVERSION@|$(SOVERSION)|g' -e 's|@PREFIX@|$(PREFIX)|' \
	-e 's|@LIBDIR@|$(call under_prefix,$(LIBDIR))|' -e 's|@INCLUDEDIR@|$(call under_prefix,$(INCLUDEDIR))|' \
	-e "s|@INCLUDE_FROM_HERE@|$$(realpath -m --relative-to=$(CMAKEDIR) $(INCLUDEDIR))|"
PUT = install -m 644 /dev/stdin
LEFT_OUT := 'dted-intake is left out: INTAKE=path gives it'

install: shared tool $(OWN_INTAKE)
	install -d $(sort $(dir $(INSTALLED:%=$(DESTDIR)%)))
	install -m 755 target/tool/dted $(DESTDIR)$(BINDIR)/dted
	$(if $(TAKEN_INTAKE),install -m 755 $(TAKEN_INTAKE) $(DESTDIR)$(BINDIR)/dted-intake,@echo $(LEFT_OUT))
	install -m 644 $(LINKED) $(DESTDIR)$(LIBDIR)
	install -m 644 $(SHARED) $(DESTDIR)$(LIBDIR)
	ln -sf libdted.so.$(VERSION) $(DESTDIR)$(LIBDIR)/libdted.so.$(SOVERSION)
	ln -sf libdted.so.$(SOVERSION) $(DESTDIR)$(LIBDIR)/libdted.so
	install -m 644 $(HEADERS) $(DESTDIR)$(INCLUDEDIR)
	$(FILL) -e 's|@NAME@|dted|' -e 's|@LIBRARY@|:libdted.a|' dted.pc.in | $(PUT) $(DESTDIR)$(PKGDIR)/dted.pc
	$(FILL) -e 's|@NAME@|dted-shared|' -e 's|@LIBRARY@|dted|' dted.pc.in | $(PUT) $(DESTDIR)$(PKGDIR)/dted-shared.pc
	$(FILL) cmake/dtedConfig.cmake.in | $(PUT) $(DESTDIR)$(CMAKEDIR)/dtedConfig.cmake
	$(FILL) cmake/dtedConfigVersion.cmake.in | $(PUT) $(DESTDIR)$(CMAKEDIR)/dtedConfigVersion.cmake
	for page in $(PAGES); do $(FILL) man/$${page##*/} | $(PUT) $(DESTDIR)$$page || exit; done
	for page in $(FUNCTION_PAGES); do echo '.so man3/dted.3' | $(PUT) $(DESTDIR)$$page || exit; done

uninstall:
	rm -f $(INSTALLED:%=$(DESTDIR)%)
	[ ! -d $(DESTDIR)$(CMAKEDIR) ] || rmdir $(DESTDIR)$(CMAKEDIR)

# ---- packed ----

# the sources, and what is installed from without the kit; DIST=folder takes them elsewhere
DIST ?= dist

# what was made with other words of the caller is made anew; the folder that is packed is no part of the checkout, in which rt ci has
# each source once, and no links
dist:
	@git ls-files --error-unmatch VERSION >/dev/null || { echo 'dist: it needs the repository: it packs what git tracks' >&2; exit 1; }
	@rm -rf target/shared target/tool
	@stage=$$(mktemp -d) && trap 'rm -rf "$$stage"' EXIT && $(MAKE) -s install DESTDIR="$$stage/" PREFIX=@PREFIX@ && \
		tools/dist "$$stage" $(firstword $(subst -, ,$(shell $(CC) -dumpmachine)))$(CPU:%=-%) $(DIST)

# ---- tests of the C library ----

# SEED and CASES choose others
host: lib
	@$(MAKE) -s -C tests/host check

# a bounded run of libFuzzer over every call
fuzz: lib
	@$(MAKE) -s -C tests/host fuzz

# ---- the library against GDAL ----

# another archive: make interop ARCHIVE=path
interop:
	@tests/interop/run

# ---- the measurements ----

# native programs, so with compilers for this machine; elsewhere than on x86-64 the proved module is compiled for it
BENCH_CC ?= gcc
SECOND_CC ?= $(shell command -v clang)
GDAL_CFLAGS ?= $(shell pkg-config --cflags gdal 2>/dev/null)
GDAL_LIBS ?= $(shell pkg-config --libs gdal 2>/dev/null)
BENCH_FLAGS := -std=c11 -Wall -Wextra -Wpedantic -Werror -O3 -Iinclude
# make bench OLD=path: beside another archive of the library, in one run; with OLD_YEARLESS=yes beside one of before 0.5.0, whose
# calls name no rule year
BENCH = target/bench$(CPU:%=-%)$(if $(OLD),-beside$(if $(OLD_YEARLESS),-yearless))
BENCH_PARTS := bench sets cell acts rounds report threads others same gdal_calls gdal_laps limit plain passes $(if $(SECOND_CC),second)
ifeq ($(shell uname -m),x86_64)
BENCH_CPU := $(or $(CPU),x86-64)
BENCH_ARCHIVE := $(LINKED)
else
BENCH_CPU := $(shell uname -m)
BENCH_ARCHIVE := target/native/libdted.a
endif
# where CPU names none, all of it for x86-64-v3 too; beside ARCHIVE=path the library for it is ARCHIVE_V3=path, or left out
ifeq ($(BENCH_CPU),x86-64)
V3 := -march=x86-64-v3
BENCH_PARTS += limit_v3 plain_v3 passes_v3 $(if $(SECOND_CC),second_v3)
ARCHIVE_V3 ?= $(if $(ARCHIVE),,target/lib/libdted-x86-64-v3.a)
endif
BENCH_WITH = -DBASE_CPU=$(BENCH_CPU) $(if $(V3),-DWITH_V3) $(if $(ARCHIVE_V3),-DWITH_V3_LIBRARY) $(if $(SECOND_CC),-DWITH_SECOND) \
	$(if $(OLD),-DWITH_OLD $(if $(OLD_YEARLESS),-DOLD_YEARLESS)) $(if $(GDAL_LIBS),-DWITH_GDAL $(GDAL_CFLAGS:-I%=-isystem %))
BENCH_MADE_OF = $(BENCH_PARTS:%=$(BENCH)/%.o) $(if $(ARCHIVE_V3),$(BENCH)/v3.a) $(if $(OLD),$(BENCH)/old.a) $(BENCH_ARCHIVE)

bench: $(BENCH)/bench
	@bench/run $< $(ARCHIVE)

# bench/last.txt, docs/figures.svg and the tables of docs/FIGURES.md
figures: $(BENCH)/bench
	@bench/figures $< $(ARCHIVE)

$(BENCH)/bench: $(BENCH_MADE_OF)
	$(BENCH_CC) $^ $(GDAL_LIBS) -pthread -o $@

# with other words than the last time all is made anew
$(BENCH)/words: FORCE
	@mkdir -p $(@D)
	@echo '$(BENCH_CC) $(SECOND_CC) $(BENCH_WITH)' >$@.new
	@cmp -s $@.new $@ || mv $@.new $@

BENCH_NEEDS := $(wildcard bench/*.h) include/dted.h

$(BENCH)/%.o: bench/%.c $(BENCH_NEEDS) $(BENCH)/words
	$(BENCH_CC) $(BENCH_FLAGS) $(CPU:%=-march=%) $(BENCH_WITH) -c $< -o $@

# plain.c again, by the second compiler, in passes and for x86-64-v3, and the pass for x86-64-v3, under other names
PLAIN_AGAIN = $(BENCH_FLAGS) $(foreach call,intake post edit write compiler,-Dplain_$(call)=$(basename $(@F))_$(call)) -c $< -o $@

$(BENCH)/second.o: bench/plain.c $(BENCH_NEEDS) $(BENCH)/words
	$(SECOND_CC) $(CPU:%=-march=%) $(PLAIN_AGAIN)

$(BENCH)/second_v3.o: bench/plain.c $(BENCH_NEEDS) $(BENCH)/words
	$(SECOND_CC) $(V3) $(PLAIN_AGAIN)

$(BENCH)/plain_v3.o: bench/plain.c $(BENCH_NEEDS) $(BENCH)/words
	$(BENCH_CC) $(V3) $(PLAIN_AGAIN)

$(BENCH)/passes.o: bench/plain.c $(BENCH_NEEDS) $(BENCH)/words
	$(BENCH_CC) $(CPU:%=-march=%) -DIN_PASSES $(PLAIN_AGAIN)

$(BENCH)/passes_v3.o: bench/plain.c $(BENCH_NEEDS) $(BENCH)/words
	$(BENCH_CC) $(V3) -DIN_PASSES $(PLAIN_AGAIN)

$(BENCH)/limit_v3.o: bench/limit.c $(BENCH_NEEDS) $(BENCH)/words
	$(BENCH_CC) $(V3) $(BENCH_FLAGS) -Dread_pass=read_pass_v3 -c $< -o $@

# an archive's names with a word before them, but for the C library's; made anew each time, for OLD and ARCHIVE_V3 may name another and
# older file than before
define BESIDE
	@mkdir -p $(@D)
	objcopy --prefix-symbols=$(basename $(@F))_ $< $@
	objcopy --redefine-sym $(basename $(@F))_memset=memset --redefine-sym $(basename $(@F))_memcpy=memcpy $@
endef

$(BENCH)/old.a: $(OLD) FORCE
	$(BESIDE)

$(BENCH)/v3.a: $(ARCHIVE_V3) FORCE
	$(BESIDE)

ifneq ($(MADE),target/lib/libdted-x86-64-v3.a)
target/lib/libdted-x86-64-v3.a: $(PLAIN)
	tools/native $@ x86_64 x86-64-v3
endif

target/native/libdted.a: $(PLAIN)
	tools/native $@
