# The engine as a part to install: make install [PREFIX=/usr/local] [DESTDIR=], make uninstall with the same, make dist.
# What is installed has no path in it that ties it to its place: a tree may be moved, and DESTDIR may be tried where it is.
PREFIX ?= /usr/local
LIBDIR ?= $(PREFIX)/lib
INCLUDEDIR ?= $(PREFIX)/include
DOCDIR ?= $(PREFIX)/share/doc/catalogue
DESTDIR ?=

header_number = $(shell sed -n 's/^\#define CATALOGUE_VERSION_$(1) \([0-9]*\)$$/\1/p' include/catalogue.h)
SERIES := $(call header_number,MAJOR).$(call header_number,MINOR)
VERSION := $(SERIES).$(call header_number,PATCH)
SONAME := libcatalogue.so.$(SERIES)

LIBRARY_BUILD := target/library
LIBRARIES := $(LIBRARY_BUILD)/libcatalogue.a $(LIBRARY_BUILD)/libcatalogue.so.$(VERSION)
INSTALLED_HEADERS := $(wildcard include/*.h)
INSTALLED_PAGES := README.md CHANGELOG.md LICENSE NOTICE $(wildcard docs/*.md docs/*.svg) $(wildcard examples/*.[ch])
RELEASE := catalogue-$(VERSION)-x86_64-linux

.PHONY: libraries install uninstall dist install-test need-destination FORCE

libraries: $(LIBRARIES) ## the engine as libcatalogue.a and libcatalogue.so (target/library)

# One object of the whole engine, in which the entry points alone can be seen from outside.
$(LIBRARY_BUILD)/catalogue.o: $(HOST_LIBRARY)
	@mkdir -p $(@D)
	@$(LD) -r --whole-archive $(HOST_LIBRARY) -o $@
	@$(OBJCOPY) --wildcard --keep-global-symbol='catalogue_*' $@
LD ?= ld
OBJCOPY ?= objcopy

$(LIBRARY_BUILD)/libcatalogue.a: $(LIBRARY_BUILD)/catalogue.o
	@rm -f $@ && $(AR) rcsD $@ $<

$(LIBRARY_BUILD)/libcatalogue.so.$(VERSION): $(LIBRARY_BUILD)/catalogue.o install/exported.map | need-cc
	@$(CC) -shared -nostartfiles $< -Wl,-soname,$(SONAME) -Wl,--version-script=install/exported.map -Wl,--no-undefined \
	    -Wl,-z,relro,-z,now -Wl,--discard-all -o $@
	@$(OBJCOPY) --strip-symbol=_DYNAMIC --strip-symbol=_GLOBAL_OFFSET_TABLE_ $@

# ---- install. $(call put,WHERE) puts everything below that folder as if it were /
relative = $(shell realpath -m --relative-to='$(1)' '$(2)')
filled = sed -e 's|@VERSION@|$(VERSION)|; s|@SERIES@|$(SERIES)|; s|@SONAME@|$(SONAME)|' -e 's|@INCLUDE@|$(call relative,$(1),$(INCLUDEDIR))|; s|@UP@|$(call relative,$(1),$(PREFIX))|'

need-destination:
	@mkdir -p '$(DESTDIR)$(PREFIX)' 2>/dev/null && [ -w '$(DESTDIR)$(PREFIX)' ] || \
	    { echo "make: $(DESTDIR)$(PREFIX) cannot be written (PREFIX and DESTDIR name another place)" >&2; exit 1; }

install: need-destination $(LIBRARIES) ## headers, libraries, pkg-config and CMake files and pages below DESTDIR and PREFIX
	@install -d '$(DESTDIR)$(INCLUDEDIR)' '$(DESTDIR)$(LIBDIR)/pkgconfig' '$(DESTDIR)$(LIBDIR)/cmake/catalogue' '$(DESTDIR)$(DOCDIR)/docs' '$(DESTDIR)$(DOCDIR)/examples'
	@install -m 644 $(INSTALLED_HEADERS) '$(DESTDIR)$(INCLUDEDIR)'
	@install -m 644 $(LIBRARY_BUILD)/libcatalogue.a '$(DESTDIR)$(LIBDIR)'
	@install -m 755 $(LIBRARY_BUILD)/libcatalogue.so.$(VERSION) '$(DESTDIR)$(LIBDIR)'
	@ln -sf libcatalogue.so.$(VERSION) '$(DESTDIR)$(LIBDIR)/$(SONAME)'
	@ln -sf $(SONAME) '$(DESTDIR)$(LIBDIR)/libcatalogue.so'
	@$(call filled,$(LIBDIR)/pkgconfig) install/catalogue.pc.in >'$(DESTDIR)$(LIBDIR)/pkgconfig/catalogue.pc'
	@for f in catalogue-config catalogue-config-version; do \
	    $(call filled,$(LIBDIR)/cmake/catalogue) install/$$f.cmake.in >"$(DESTDIR)$(LIBDIR)/cmake/catalogue/$$f.cmake" || exit 1; done
	@for f in $(INSTALLED_PAGES); do install -m 644 $$f "$(DESTDIR)$(DOCDIR)/$$f" || exit 1; done
	@echo "the catalogue engine $(VERSION) is installed below $(DESTDIR)$(PREFIX)$(if $(DESTDIR),,; ldconfig tells the loader of a new library)"

uninstall: ## removes what install has put below DESTDIR and PREFIX
	@rm -f $(INSTALLED_HEADERS:include/%='$(DESTDIR)$(INCLUDEDIR)/%') $(INSTALLED_PAGES:%='$(DESTDIR)$(DOCDIR)/%') \
	    '$(DESTDIR)$(LIBDIR)/pkgconfig/catalogue.pc' '$(DESTDIR)$(LIBDIR)'/cmake/catalogue/catalogue-config*.cmake \
	    $(foreach f,libcatalogue.a libcatalogue.so $(SONAME) libcatalogue.so.$(VERSION),'$(DESTDIR)$(LIBDIR)/$(f)')
	@for d in '$(DOCDIR)/docs' '$(DOCDIR)/examples' '$(DOCDIR)' '$(LIBDIR)/cmake/catalogue'; do \
	    [ ! -d "$(DESTDIR)$$d" ] || rmdir --ignore-fail-on-non-empty "$(DESTDIR)$$d"; done
	@echo "the catalogue engine is no longer below $(DESTDIR)$(PREFIX)"

# ---- dist: the same tree as a tarball, with where it comes from
dist: need-target $(LIBRARIES) ## a tarball for those without the toolchain (target/catalogue-VERSION-x86_64-linux.tar.gz)
	@rm -rf target/$(RELEASE) && mkdir -p target/$(RELEASE)
	@$(MAKE) --no-print-directory install DESTDIR= PREFIX='$(CURDIR)/target/$(RELEASE)' LIBDIR='$(CURDIR)/target/$(RELEASE)/lib' \
	    INCLUDEDIR='$(CURDIR)/target/$(RELEASE)/include' DOCDIR='$(CURDIR)/target/$(RELEASE)' >/dev/null
	@sh install/provenance.sh $(HOST_LIBRARY) target/$(RELEASE)/lib/libcatalogue.a target/$(RELEASE)/lib/libcatalogue.so.$(VERSION) >target/$(RELEASE)/PROVENANCE
	@cat target/$(RELEASE)/PROVENANCE
	@tar -C target --sort=name --owner=0 --group=0 --numeric-owner --mtime="@$$(git log -1 --format=%ct 2>/dev/null || echo 0)" -czf target/$(RELEASE).tar.gz $(RELEASE)
	@echo "target/$(RELEASE).tar.gz"

# ---- an installed tree in a scratch folder, used as a buyer would
install-test: need-cc need-cxx need-pkg-config need-cmake $(LIBRARIES) ## programs in C and C++ built from an installed tree, by pkg-config and by CMake
	@MAKE='$(MAKE) --no-print-directory' CC='$(CC)' CXX='$(CXX)' VERSION=$(VERSION) SONAME=$(SONAME) sh install/test/run.sh
