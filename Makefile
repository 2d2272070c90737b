# Builds, tests and installs the library, the programs and the manual pages; README.md, "Installing", says how. The
# Rattle kit (rt) proves and builds the proved files if they are missing. The rest needs a C compiler and Python 3; an
# archive of built files needs neither.
#
#     make                      builds what is to be installed, in target/install
#     make check                installs into a scratch folder, tests what was installed and uninstalls it
#     make install              installs into PREFIX; with PYTHON=yes the Python package too
#     make uninstall            removes what install put there
#     make dist                 makes a source archive and an archive of built files, in target/dist
#     make deb MAINTAINER=..    makes Debian packages, in target/deb
#     make clean                removes what this file made; `rm -r target` removes the proved files too

VERSION = 3.0.0
SONAME = libheronditch.so.3

PREFIX ?= /usr/local
BINDIR ?= $(PREFIX)/bin
LIBDIR ?= $(PREFIX)/lib
INCLUDEDIR ?= $(PREFIX)/include
PKGCONFIGDIR ?= $(LIBDIR)/pkgconfig
DATADIR ?= $(PREFIX)/share
MANDIR ?= $(DATADIR)/man
DOCDIR ?= $(DATADIR)/doc/heronditch
CC ?= cc
CFLAGS ?= -O2
INSTALL ?= install
STRIP ?= strip
PYTHON ?= no
PYTHON3 ?= $(shell python/interpreter 2>/dev/null || echo python3)
PYTHONDIR ?= $(shell $(PYTHON3) install/modules $(PREFIX))

OUT = target/install
SHARED = $(OUT)/libheronditch.so.$(VERSION)
PROGRAMS = $(OUT)/heronditch-report $(OUT)/heronditch-test-board $(OUT)/heronditch-shelf
PAGES = $(OUT)/man/heronditch.3
PROVED = $(if $(wildcard crates),$(OUT)/PROVED.txt,docs/PROVED.txt)
WHEEL = $(OUT)/wheel/made
HEADERS = include/heronditch.h include/heronditch.hpp
GUIDES = $(patsubst %,docs/%.md,AUDIT BENCH CHANGES COST GLOSSARY IMPORT LOADS PROMISES SCALE SPECIFICATION TEXT-FORM)
DOCS = README.md $(GUIDES)

all: $(OUT)/libheronditch.a $(SHARED) $(PROGRAMS) $(PAGES) $(PROVED) $(if $(filter yes,$(PYTHON)),$(WHEEL))

# What the kit proves, where there is something to prove: an archive of what is built has it in target/install.
# install/built leaves alone what is up to date, and then nothing is made anew. The programs lose their tables of symbols,
# and nothing else.
ifneq ($(wildcard crates),)
target/staticlib/libheronditch.a: FORCE
	@install/built
target/bin/finder target/bin/loader target/bin/shelf: target/staticlib/libheronditch.a ;

$(OUT)/libheronditch.a: target/staticlib/libheronditch.a
	@mkdir -p $(OUT)
	cp $< $@

$(OUT)/heronditch-report: target/bin/finder
$(OUT)/heronditch-test-board: target/bin/loader
$(OUT)/heronditch-shelf: target/bin/shelf
$(PROGRAMS):
	@mkdir -p $(OUT)
	$(STRIP) -o $@ $<

$(PROVED): $(OUT)/libheronditch.a $(SHARED) $(PROGRAMS) FORCE
	@CC='$(CC)' tools/proved $(VERSION) $(OUT) >$@.new && if cmp -s $@.new $@; then rm $@.new; else mv $@.new $@; fi
endif

$(OUT)/exports: include/heronditch.h tools/header.py
	@mkdir -p $(OUT)
	@test $(SONAME) = libheronditch.so.$$($(PYTHON3) tools/header.py version) || \
	    { echo 'make: VERSION and SONAME of the Makefile have not the version of include/heronditch.h: change them' >&2; exit 1; }
	$(PYTHON3) tools/header.py exports >$@

$(SHARED): $(OUT)/libheronditch.a $(OUT)/exports
	$(CC) $(CFLAGS) $(LDFLAGS) -shared -s -Wl,-soname,$(SONAME) -Wl,--version-script=$(OUT)/exports \
	    -Wl,-z,defs,-z,relro,-z,now,-z,noexecstack -Wl,--whole-archive $< -Wl,--no-whole-archive -o $@

$(PAGES): include/heronditch.h docs/TEXT-FORM.md install/heronditch.1.in tools/header.py tools/pages.py Makefile \
    $(wildcard python/heronditch/command/*.py)
	$(PYTHON3) tools/pages.py $(VERSION) $(OUT)/man

$(WHEEL): $(OUT)/libheronditch.a $(wildcard python/setup.py python/pyproject.toml python/heronditch/*.py python/heronditch/*/*.py)
	rm -rf $(@D)
	HERONDITCH_LIBRARY=$(abspath $<) python/wheel $(@D) >/dev/null
	@touch $@

check: all
	tests/install/run

install: all
	$(INSTALL) -d $(addprefix $(DESTDIR),$(BINDIR) $(LIBDIR) $(INCLUDEDIR) $(PKGCONFIGDIR) $(DOCDIR))
	$(INSTALL) -d $(addprefix $(DESTDIR)$(MANDIR)/,man1 man3 man5)
	$(INSTALL) -m 755 $(PROGRAMS) $(DESTDIR)$(BINDIR)
	$(INSTALL) -m 644 $(OUT)/libheronditch.a $(SHARED) $(DESTDIR)$(LIBDIR)
	ln -sf libheronditch.so.$(VERSION) $(DESTDIR)$(LIBDIR)/$(SONAME)
	ln -sf $(SONAME) $(DESTDIR)$(LIBDIR)/libheronditch.so
	$(INSTALL) -m 644 $(HEADERS) $(DESTDIR)$(INCLUDEDIR)
	sed 's|@PREFIX@|$(PREFIX)|; s|@LIBDIR@|$(LIBDIR)|; s|@INCLUDEDIR@|$(INCLUDEDIR)|; s|@VERSION@|$(VERSION)|' \
	    install/heronditch.pc.in >$(DESTDIR)$(PKGCONFIGDIR)/heronditch.pc
	chmod 644 $(DESTDIR)$(PKGCONFIGDIR)/heronditch.pc
	$(INSTALL) -m 644 $(OUT)/man/*.1 $(DESTDIR)$(MANDIR)/man1
	$(INSTALL) -m 644 $(OUT)/man/*.3 $(DESTDIR)$(MANDIR)/man3
	$(INSTALL) -m 644 $(OUT)/man/*.5 $(DESTDIR)$(MANDIR)/man5
	$(INSTALL) -m 644 $(DOCS) $(PROVED) $(DESTDIR)$(DOCDIR)
	cp -R examples samples $(DESTDIR)$(DOCDIR)
	chmod -R u+rwX,go+rX,go-w $(DESTDIR)$(DOCDIR)
ifeq ($(PYTHON),yes)
	$(INSTALL) -d $(DESTDIR)$(PYTHONDIR)
	$(PYTHON3) -m zipfile -e $(OUT)/wheel/heronditch-*.whl $(DESTDIR)$(PYTHONDIR)
	sed "s|@PYTHON3@|$$(command -v $(PYTHON3))|; s|@PYTHONDIR@|$(PYTHONDIR)|" install/heronditch.in \
	    >$(DESTDIR)$(BINDIR)/heronditch
	chmod 755 $(DESTDIR)$(BINDIR)/heronditch
endif
	@test -n '$(DESTDIR)' || ldconfig 2>/dev/null || true # so that programs find the shared library, where root installs it

# Takes the same words as install. Folders may be shared with others and stay, but for the one of the documentation.
uninstall: $(PAGES)
	rm -f $(addprefix $(DESTDIR)$(BINDIR)/,$(notdir $(PROGRAMS)))
	rm -f $(addprefix $(DESTDIR)$(LIBDIR)/,libheronditch.a libheronditch.so $(SONAME) libheronditch.so.$(VERSION))
	rm -f $(addprefix $(DESTDIR)$(INCLUDEDIR)/,$(notdir $(HEADERS))) $(DESTDIR)$(PKGCONFIGDIR)/heronditch.pc
	cd $(OUT)/man && for page in *; do rm -f $(DESTDIR)$(MANDIR)/man$${page##*.}/$$page; done
	rm -rf $(addprefix $(DESTDIR)$(DOCDIR)/,$(notdir $(DOCS) $(PROVED)) examples samples)
	rmdir $(DESTDIR)$(DOCDIR) 2>/dev/null || true
ifeq ($(PYTHON),yes)
	test -n '$(PYTHONDIR)'
	rm -rf $(addprefix $(DESTDIR)$(PYTHONDIR)/,heronditch heronditch-*.dist-info _heronditch.abi3.so)
	rm -f $(DESTDIR)$(BINDIR)/heronditch
endif

dist: all $(WHEEL)
	install/dist $(VERSION) $(GUIDES)

deb: dist
	install/deb $(VERSION) '$(MAINTAINER)'

clean:
	rm -rf $(OUT) target/dist target/deb

FORCE:
.PHONY: all check install uninstall dist deb clean FORCE
