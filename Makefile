# Builds, tests and installs the library, its tool and its manual pages.
#
#   make                    the archive, the tool and the pkg-config file, below target/
#   make check              the tests, over the archive; .ci/run also proves everything again
#   make install            into PREFIX, which is /usr/local, below DESTDIR if that is given
#   make uninstall          takes that away again
#   make clean              removes target/
#
# CC and CFLAGS are taken as usual. The archive holds x86-64 code; on an Arm machine so does the tool, and it takes an
# emulator to run it.

PREFIX ?= /usr/local
BINDIR = $(PREFIX)/bin
LIBDIR = $(PREFIX)/lib
INCLUDEDIR = $(PREFIX)/include
MANDIR = $(PREFIX)/share/man
INSTALL ?= install

ARCHIVE = target/staticlib/libjokulvisp.a
TOOL = target/tool/jokulvisp
ROWSHOW = target/bin/rowshow
PKG_CONFIG_FILE = target/jokulvisp.pc
CALLS = jv_number_text jv_read_word jv_write_word jv_check jv_paint jv_paint_row jv_repaint jv_ring_run jv_ring_write jv_ring_reset
VERSION = $(shell sed -n 's/^\#define JV_VERSION "\(.*\)"/\1/p' include/jokulvisp.h)

all: $(ARCHIVE) $(TOOL) $(PKG_CONFIG_FILE)

CRATES = crates.txt $(shell find crates -type f ! -path '*/must-fail/*' ! -path '*/out/*')

# Proved first, whatever has changed since it last was.
$(ARCHIVE): $(CRATES)
	cd crates/jokulvisp_c && rt lib
	mkdir -p $(@D)
	cp crates/jokulvisp_c/out/libjokulvisp_c.a $@

# The tests alone need it. 'rt ci' leaves it there; 'rt run' proves and builds it too, and runs it once.
crates/rowshow/out/rowshow: $(CRATES)
	cd crates/rowshow && rt run <stdin >/dev/null
	touch $@

$(ROWSHOW): crates/rowshow/out/rowshow
	mkdir -p $(@D)
	cp $< $@

$(TOOL): $(ARCHIVE) include/jokulvisp.h tool/build $(wildcard tool/*.c tool/*.h)
	tool/build

# It names the place where things are installed, which is another one at another call.
$(PKG_CONFIG_FILE): FORCE
	mkdir -p $(@D)
	sed -e 's|@PREFIX@|$(PREFIX)|' -e 's|@LIBDIR@|$(LIBDIR)|' -e 's|@INCLUDEDIR@|$(INCLUDEDIR)|' \
		-e 's|@VERSION@|$(VERSION)|' jokulvisp.pc.in >$@

check: all $(ROWSHOW)
	tests/run

install: all
	$(INSTALL) -d $(DESTDIR)$(BINDIR) $(DESTDIR)$(LIBDIR)/pkgconfig $(DESTDIR)$(INCLUDEDIR)
	$(INSTALL) -d $(DESTDIR)$(MANDIR)/man1 $(DESTDIR)$(MANDIR)/man3
	$(INSTALL) -m 755 $(TOOL) $(DESTDIR)$(BINDIR)
	$(INSTALL) -m 644 $(ARCHIVE) $(DESTDIR)$(LIBDIR)
	$(INSTALL) -m 644 $(PKG_CONFIG_FILE) $(DESTDIR)$(LIBDIR)/pkgconfig
	$(INSTALL) -m 644 include/jokulvisp.h $(DESTDIR)$(INCLUDEDIR)
	$(INSTALL) -m 644 man/jokulvisp.1 $(DESTDIR)$(MANDIR)/man1
	$(INSTALL) -m 644 man/jokulvisp.3 $(DESTDIR)$(MANDIR)/man3
	for call in $(CALLS); do \
		echo '.so man3/jokulvisp.3' >$(DESTDIR)$(MANDIR)/man3/$$call.3 || exit 1; \
	done

uninstall:
	rm -f $(DESTDIR)$(BINDIR)/jokulvisp $(DESTDIR)$(LIBDIR)/libjokulvisp.a
	rm -f $(DESTDIR)$(LIBDIR)/pkgconfig/jokulvisp.pc $(DESTDIR)$(INCLUDEDIR)/jokulvisp.h
	rm -f $(DESTDIR)$(MANDIR)/man1/jokulvisp.1 $(DESTDIR)$(MANDIR)/man3/jokulvisp.3
	rm -f $(CALLS:%=$(DESTDIR)$(MANDIR)/man3/%.3)

clean:
	rm -rf target

.PHONY: all check install uninstall clean FORCE
FORCE:
