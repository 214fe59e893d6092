# make                          proves and builds the machine for C programs, libtariff.a, and the command box; some minutes, once
# make install PREFIX=DIR       installs them with the headers, tariff.pc, the lessons, the documents and the manual page; DESTDIR too
# make uninstall PREFIX=DIR     removes what was installed
#
# rt, cargo and a C compiler are needed to build, and nothing but a C library to use what is installed.
PREFIX = /usr/local
BINDIR = $(PREFIX)/bin
LIBDIR = $(PREFIX)/lib
INCLUDEDIR = $(PREFIX)/include
DATADIR = $(PREFIX)/share
MANDIR = $(DATADIR)/man
PKGCONFIGDIR = $(LIBDIR)/pkgconfig
INSTALL = install

made = target/install
docs = docs/COURSE.md docs/HOST.md docs/JAVA.md docs/LESSONS.md docs/STORE.md examples/quote.c
papers = $(shell sed -n 's/^.define TARIFF_PAPERS //p' include/tariff.h)

all:
	@tests/build --say host desk
	@./box --build >/dev/null
	@mkdir -p $(made)
	@if ! [ -e $(made)/libtariff.a ] || [ target/staticlib/libhost.a -nt $(made)/libtariff.a ] || [ target/staticlib/libdesk.a -nt $(made)/libtariff.a ]; then \
	    cd $(made) && rm -f *.o libtariff.a && ar x ../staticlib/libhost.a && ar x ../staticlib/libdesk.a && ar rcs libtariff.a host.o desk.o && rm -f *.o; \
	fi
	@echo "built $(made)/libtariff.a and box"

install: all
	$(INSTALL) -d "$(DESTDIR)$(BINDIR)" "$(DESTDIR)$(LIBDIR)" "$(DESTDIR)$(INCLUDEDIR)" "$(DESTDIR)$(PKGCONFIGDIR)" "$(DESTDIR)$(MANDIR)/man1" \
	    "$(DESTDIR)$(DATADIR)/tariff/lessons" "$(DESTDIR)$(DATADIR)/doc/tariff"
	$(INSTALL) -m 755 "$$(./box --build)" "$(DESTDIR)$(BINDIR)/box"
	$(INSTALL) -m 644 $(made)/libtariff.a "$(DESTDIR)$(LIBDIR)"
	$(INSTALL) -m 644 include/tariff.h include/desk.h "$(DESTDIR)$(INCLUDEDIR)"
	$(INSTALL) -m 644 docs/box.1 "$(DESTDIR)$(MANDIR)/man1"
	$(INSTALL) -m 644 examples/*.lesson examples/*.box examples/*.txt "$(DESTDIR)$(DATADIR)/tariff/lessons"
	$(INSTALL) -m 644 $(docs) "$(DESTDIR)$(DATADIR)/doc/tariff"
	@printf '%s\n' 'prefix=$(PREFIX)' 'libdir=$(LIBDIR)' 'includedir=$(INCLUDEDIR)' '' 'Name: tariff' \
	    'Description: The proved tariff class machine, and the publishers'"'"' desk' 'Version: $(papers)' \
	    'Libs: -L"$${libdir}" -ltariff' 'Cflags: -I"$${includedir}"' >"$(DESTDIR)$(PKGCONFIGDIR)/tariff.pc"

uninstall:
	rm -f "$(DESTDIR)$(BINDIR)/box" "$(DESTDIR)$(LIBDIR)/libtariff.a" "$(DESTDIR)$(INCLUDEDIR)/tariff.h" "$(DESTDIR)$(INCLUDEDIR)/desk.h" \
	    "$(DESTDIR)$(PKGCONFIGDIR)/tariff.pc" "$(DESTDIR)$(MANDIR)/man1/box.1"
	rm -rf "$(DESTDIR)$(DATADIR)/tariff" "$(DESTDIR)$(DATADIR)/doc/tariff"

clean:
	rm -rf $(made)

.PHONY: all install uninstall clean
