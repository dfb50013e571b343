# What make install puts where, and what make uninstall takes away: the same files, and no directory.
# Each directory may be set for itself. DESTDIR is put before all of them and is written into no file. Paths may have
# spaces, but no & or |, which sed would read. A library or include directory below PREFIX is given to pkg-config as a
# part of it, so that all can be moved together.
PREFIX ?= /usr/local
bindir ?= $(PREFIX)/bin
libdir ?= $(PREFIX)/lib
includedir ?= $(PREFIX)/include
mandir ?= $(PREFIX)/share/man
pkgconfigdir ?= $(libdir)/pkgconfig
docdir ?= $(PREFIX)/share/doc/stewlattice

MAN1 = $(PROGRAMS:%=%.1)
MAN3 = stewlattice.3 stewlattice_start.3 stewlattice_step.3

.PHONY: install uninstall

install: archive program
	$(if $(filter-out /%,$(firstword $(PREFIX))),$(error PREFIX is to be an absolute path, and is $(PREFIX)))
	sed -e 's|@PREFIX@|$(PREFIX)|' -e 's|@LIBDIR@|$(libdir:$(PREFIX)/%=$${prefix}/%)|' \
	    -e 's|@INCLUDEDIR@|$(includedir:$(PREFIX)/%=$${prefix}/%)|' -e "s|@VERSION@|$$(cat VERSION)|" \
	    install/stewlattice.pc.in >target/stewlattice.pc
	umask 022 && mkdir -p "$(DESTDIR)$(bindir)" "$(DESTDIR)$(libdir)" "$(DESTDIR)$(includedir)" \
	    "$(DESTDIR)$(pkgconfigdir)" "$(DESTDIR)$(mandir)/man1" "$(DESTDIR)$(mandir)/man3" "$(DESTDIR)$(docdir)"
	install -m 755 $(PROGRAMS:%=target/bin/%) "$(DESTDIR)$(bindir)"
	install -m 644 $(ARCHIVE) "$(DESTDIR)$(libdir)/libstewlattice.a"
	install -m 644 include/stewlattice.h "$(DESTDIR)$(includedir)"
	install -m 644 target/stewlattice.pc "$(DESTDIR)$(pkgconfigdir)"
	install -m 644 $(MAN1:%=install/man/%) "$(DESTDIR)$(mandir)/man1"
	install -m 644 $(MAN3:%=install/man/%) "$(DESTDIR)$(mandir)/man3"
	install -m 644 docs/RULES.md "$(DESTDIR)$(docdir)"

uninstall:
	rm -f $(patsubst %,"$(DESTDIR)$(bindir)/%",$(PROGRAMS)) "$(DESTDIR)$(libdir)/libstewlattice.a" \
	    "$(DESTDIR)$(includedir)/stewlattice.h" "$(DESTDIR)$(pkgconfigdir)/stewlattice.pc" \
	    $(patsubst %,"$(DESTDIR)$(mandir)/man1/%",$(MAN1)) $(patsubst %,"$(DESTDIR)$(mandir)/man3/%",$(MAN3)) \
	    "$(DESTDIR)$(docdir)/RULES.md"
