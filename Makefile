# The one door to all that is built, tested, proved, installed and packed here. `make help` lists it.
#
# What is proved goes to build/, and what isn't to build/quick/ and build/rust/.
SHELL = /bin/sh
.DELETE_ON_ERROR:

VERSION := $(shell cat VERSION)
# Its three numbers, without what marks a version before a release.
NUMBERS := $(firstword $(subst -, ,$(VERSION)))
KIT = $(shell tools/kit.py)
LIBRARY = libdimacs.a libdimacs.so
OBJCOPY = objcopy
HEAP = $(or $(KIT),kit-is-missing)/c/liblibc_c.a

# Where make install puts files, by the names of GNU; those in capitals do as well. Packagers set DESTDIR too.
prefix = /usr/local
exec_prefix = $(PREFIX)
bindir = $(exec_prefix)/bin
libdir = $(exec_prefix)/lib
includedir = $(PREFIX)/include
datarootdir = $(PREFIX)/share
datadir = $(datarootdir)
mandir = $(datarootdir)/man
docdir = $(datarootdir)/doc/dimacs
PREFIX = $(prefix)
BINDIR = $(bindir)
LIBDIR = $(libdir)
INCLUDEDIR = $(includedir)
DATADIR = $(datadir)
MANDIR = $(mandir)
DOCDIR = $(docdir)
ZSHDIR = $(DATADIR)/zsh/site-functions
DESTDIR =
FOLDERS = PREFIX BINDIR LIBDIR INCLUDEDIR DATADIR MANDIR DOCDIR ZSHDIR DESTDIR

# The folder of what is installed: what is proved, or with UNPROVED=1 what isn't.
FROM = build$(if $(UNPROVED),/quick)
ifneq ($(filter build/quick% build/rust%,$(FROM)),)
override UNPROVED = 1
endif
MADE = $(if $(wildcard tools/man_pages.py),build/man$(if $(UNPROVED),-unproved))

## make: proves the program and the library, and builds build/dimacs, build/libdimacs.a and build/libdimacs.so
all: build/dimacs build/linked

## make help: lists this
help:
	@sed -n 's/^## //p' $(MAKEFILE_LIST)

## make quick: builds them unproved in build/quick, in two minutes of processor time each
quick: build/quick/dimacs build/quick/linked
	@echo 'Try:  build/quick/dimacs certify-max examples/pipes.max examples/pipes.solution'
	@echo 'For the commands of examples/README.md:  PATH=$$PWD/build/quick:$$PWD/tools:$$PATH'

## make check: tests build/quick, unproved, in ten minutes
check: quick
	@tools/kit.py >/dev/null
	@tests/check.py build/quick

## make rust: builds them unproved in build/rust by Rust 1.88 or later, without the kit, in two minutes of processor time
rust: build/rust/dimacs $(if $(filter Linux,$(shell uname -s)),$(if $(shell command -v $(OBJCOPY)),build/rust/linked))
	@echo 'Try:  build/rust/dimacs certify-max examples/pipes.max examples/pipes.solution'

## make check-rust: tests build/rust, in ten minutes, without the kit
check-rust: rust
	@tests/check.py build/rust

## make rust-source: packs the sources as plain Rust in dist/rust, for who has cargo alone
rust-source:
	tools/dist.py --for rust

## make prove: the gate: proves all from nothing, has a tenth of the wrong bodies refused, and runs the tests over it
prove:
	.ci/gate

## make prove-all: the same with all wrong bodies
prove-all:
	.ci/gate all

## make referee: checks the proofs in Coq, and builds build/referee/judge; it needs no kit
referee:
	@referee/proof/build.sh build/referee

# These leave what was built of the same sources as it is (tools/sources.py), which times alone don't show. Make links the
# library of build/rust if objcopy is GNU's; else cargo does.
build/quick/dimacs build/quick/dimacs.bc &: FORCE
	@tools/quick_build.py program build/quick/dimacs

build/quick/dimacs_c.a build/quick/dimacs_c.bc &: FORCE
	@tools/quick_build.py library build/quick/dimacs_c.a

%/rust/dimacs %/rust/dimacs_c.a: FORCE
	@tools/rust_build.py $(@D)

build/dimacs build/dimacs_c.a build/dimacs_c.bc &: FORCE
	@tools/proved_build.py build

# What the gate runs over: what rt ci proved, put in build/ without a proof made again.
proved-by-ci:
	tools/proved_build.py --by-ci build
	$(MAKE) --no-print-directory build/linked npm page

# rustc's archive has all of its std. What no call needs is left out, and all else but the calls is local: a program in
# Rust has a std of its own.
%/rust/dimacs.o: %/rust/dimacs_c.a
	$(CC) -r -nostdlib -o $@ -Wl,--force-group-allocation $(CALLS:%=-Wl,-u,%) $<
	$(OBJCOPY) --wildcard --keep-global-symbol='dimacs_*' $@

# One object of the calls and the kit's C library, which takes memory by malloc. What isn't exported is local in it:
# nothing else can clash with a name of another library.
%/dimacs.o: %/dimacs_c.a
	$(CC) -r -nostdlib -o $@ -Wl,--whole-archive $< -Wl,--no-whole-archive $(HEAP)
	$(OBJCOPY) --wildcard --keep-global-symbol='dimacs_*' $@

%/libdimacs.a: %/dimacs.o
	rm -f $@
	$(AR) rcs $@ $<

%/libdimacs.so.0: %/dimacs.o lib/exports.map
	$(CC) $(CFLAGS) $(LDFLAGS) -shared -o $@ $< -Wl,-soname,libdimacs.so.0 -Wl,--version-script=lib/exports.map \
	    -Wl,-z,defs -Wl,-z,noexecstack -Wl,-z,relro -Wl,-z,now

%/libdimacs.so: %/libdimacs.so.0
	ln -sf libdimacs.so.0 $@

## make install: installs what is proved, into PREFIX=/usr/local below DESTDIR=; UNPROVED=1 takes what isn't proved
install: $(FROM)/dimacs $(FROM)/dimacs_c.a linked $(MADE)
	@$(INSTALL) $(FROM)

## make uninstall: removes what was installed there, and no more
uninstall:
	@$(INSTALL) --remove

INSTALL = $(foreach it,$(FOLDERS),$(it)='$($(it))') NUMBERS=$(NUMBERS) VERSION=$(VERSION)$(if $(UNPROVED),+unproved) \
    tools/install.sh

# A copied build has other times, and isn't linked again as long as it is what was linked.
linked: $(FROM)/dimacs_c.a
	@cd $(FROM) && sha256sum --status -c linked 2>/dev/null || $(MAKE) -C $(CURDIR) --no-print-directory $(FROM)/linked

%/linked: %/libdimacs.a %/libdimacs.so
	cd $* && sha256sum dimacs_c.a libdimacs.a libdimacs.so.0 >linked

build/man build/man-unproved: tools/man_pages.py VERSION crates/dimacs_usage/src/usage.rt $(wildcard man/*.md docs/*.md *.md recipes/README.md)
	rm -rf $@ $@.new
	mkdir -p $@.new
	tools/man_pages.py $@.new $(if $(filter %unproved,$@),unproved)
	mv $@.new $@

## make dist: makes packages of what is proved in dist/, and tests them; MAINTAINER="Name <address>" is their contact
## make dist ARCH=aarch64: makes those for that system in dist/aarch64; ARCH=windows makes a wheel in dist/windows
dist: $(or $(if $(UNPROVED),proved-only),$(if $(filter-out x86_64 aarch64 windows,$(ARCH)),no-such-system),all) $(MADE)
	tools/dist.py $(ARCH:%=--for %)
	tests/packages.py dist$(addprefix /,$(filter-out x86_64,$(ARCH)))

## make check-packages: tests the packages in dist/ in an empty Debian, and has lintian read them, which takes some minutes
check-packages:
	tests/packages.py dist --root

proved-only:
	@echo "make dist: packages are made of what is proved alone" >&2
	@exit 2

no-such-system:
	@echo "make dist: ARCH is x86_64, aarch64 or windows, and not $(ARCH)" >&2
	@exit 2

## make release: runs all that a release has to pass (CONTRIBUTING.md), which takes hours; no tool may be missing
release:
	ALL_TOOLS=yes .ci/gate all
	$(MAKE) check-targets
	$(MAKE) dist check-packages
	$(MAKE) dist ARCH=aarch64
	@echo 'dimacs $(VERSION) can be tagged v$(VERSION), with what CHANGELOG.md says of it'

## make theorem: brings docs/THEOREM.md up to date
theorem:
	tools/theorem.py

## make bench: measures; WORK=WORD measures one work, and bench/README.md names them
bench:
	bench/run $(WORK)

## make clean: removes build and dist, and keeps what was proved, which is in crates/*/out
clean:
	rm -rf build dist

include targets.mk

# Of these, what a failed proof leaves is whole, and of the sources that are noted beside it.
.PRECIOUS: build/dimacs build/dimacs_c.a build/dimacs_c.bc %/rust/dimacs %/rust/dimacs_c.a %/rust/dimacs.o %/dimacs.o \
    %/libdimacs.a %/libdimacs.so.0 %/libdimacs.so
.PHONY: all help quick check rust check-rust rust-source referee prove prove-all proved-by-ci install uninstall linked dist \
    check-packages proved-only no-such-system release theorem bench clean FORCE
