# Builds and installs Duchrelin.
#
#   make                                   the archive, the program route and the screen; needs rt and a C compiler
#   make install PREFIX=/usr DESTDIR=...   headers, archive, programs, pkg-config file and man pages
#   make uninstall PREFIX=... DESTDIR=...  takes exactly those away again; folders stay
#   make sample                            a route over three profiles of the sample store
#   make check                             the gate
#
# What is built already is not built again, so `make install` may run as another user than `make`.

VERSION = 0.1.0

PREFIX = /usr/local
BINDIR = $(PREFIX)/bin
LIBDIR = $(PREFIX)/lib
INCLUDEDIR = $(PREFIX)/include
MANDIR = $(PREFIX)/share/man
PKGCONFIGDIR = $(LIBDIR)/pkgconfig

RT = rt
CFLAGS = -O2
INSTALL = install

archive = target/staticlib/libduchrelin.a
route = target/bin/route
screen = target/screen/duchrelin-screen

headers = include/duchrelin.h include/duchrelin_words.h
pages1 = man/route.1 man/duchrelin-screen.1
pages3 = man/duchrelin.3
proved = crates.txt $(foreach part,src specs proofs,$(wildcard crates/*/$(part)/*))

all: $(archive) $(route) $(screen)

# (One check at a time: two at once would only wait for each other.)
$(archive): $(proved) programs/archive
	RT=$(RT) programs/archive

$(route): $(proved) programs/route.c programs/build
	RT=$(RT) CC=$(CC) programs/build

$(screen): $(wildcard examples/screen/*.c examples/screen/*.h) $(headers) $(archive) Makefile
	mkdir -p $(@D)
	$(CC) -std=c11 -Wall -Wextra -Wpedantic $(CPPFLAGS) $(CFLAGS) -Iinclude -DDUCHRELIN_VERSION='"$(VERSION)"' \
		$(wildcard examples/screen/*.c) $(archive) $(LDFLAGS) -o $@

installed = $(BINDIR)/duchrelin-screen $(BINDIR)/route $(LIBDIR)/libduchrelin.a $(PKGCONFIGDIR)/duchrelin.pc \
	$(addprefix $(INCLUDEDIR)/,$(notdir $(headers))) \
	$(addprefix $(MANDIR)/man1/,$(notdir $(pages1))) $(addprefix $(MANDIR)/man3/,$(notdir $(pages3)))

install: all
	$(INSTALL) -d "$(DESTDIR)$(BINDIR)" "$(DESTDIR)$(LIBDIR)" "$(DESTDIR)$(INCLUDEDIR)" "$(DESTDIR)$(PKGCONFIGDIR)" \
		"$(DESTDIR)$(MANDIR)/man1" "$(DESTDIR)$(MANDIR)/man3"
	$(INSTALL) -m 755 $(screen) $(route) "$(DESTDIR)$(BINDIR)"
	$(INSTALL) -m 644 $(archive) "$(DESTDIR)$(LIBDIR)"
	$(INSTALL) -m 644 $(headers) "$(DESTDIR)$(INCLUDEDIR)"
	$(INSTALL) -m 644 $(pages1) "$(DESTDIR)$(MANDIR)/man1"
	$(INSTALL) -m 644 $(pages3) "$(DESTDIR)$(MANDIR)/man3"
	sed -e 's|@VERSION@|$(VERSION)|' -e 's|@PREFIX@|$(PREFIX)|' \
		-e 's|@LIBDIR@|$(patsubst $(PREFIX)/%,$${prefix}/%,$(LIBDIR))|' \
		-e 's|@INCLUDEDIR@|$(patsubst $(PREFIX)/%,$${prefix}/%,$(INCLUDEDIR))|' \
		duchrelin.pc.in >"$(DESTDIR)$(PKGCONFIGDIR)/duchrelin.pc"
	chmod 644 "$(DESTDIR)$(PKGCONFIGDIR)/duchrelin.pc"

uninstall:
	rm -f $(foreach file,$(installed),"$(DESTDIR)$(file)")

sample: $(route)
	@cat examples/store/meter.profile examples/store/spur-coupler.profile examples/store/spur-gateway.profile | $(route)

check:
	.ci/run

clean:
	rm -rf target/screen

.PHONY: all install uninstall sample check clean
.NOTPARALLEL:
.DELETE_ON_ERROR:
