# The library for C and other languages: builds it, and installs it with its headers, the Python package and the Rust crate.
#
#     make library                               # needs rt, the Rattle toolchain
#     make install-library PREFIX=/usr/local     # needs no rt once it is built; honours DESTDIR
#     make uninstall-library PREFIX=/usr/local
#
# The static library needs no other. The shared object is made from it by one command, see below.
GEOLINT_ROOT := $(patsubst %/,%,$(dir $(lastword $(MAKEFILE_LIST))))/..
LIBRARY_BUILD ?= $(GEOLINT_ROOT)/out/library
GEOLINT_C := $(GEOLINT_ROOT)/crates/geolint_c

PREFIX ?= /usr/local
LIBDIR ?= $(PREFIX)/lib
INCLUDEDIR ?= $(PREFIX)/include
# The Rust crate is a folder of sources, which a host names in its Cargo.toml.
RUSTDIR ?= $(PREFIX)/share/geolint/rust
# The folder of the Python package: where a Python looks that has such a folder under PREFIX, in this order the one in PREFIX/bin, python3
# and the system's; where none has one, PREFIX/lib/python3/dist-packages, which PYTHONPATH has to name. PYTHON names another Python,
# and then it is the folder of that one.
PYTHONDIR ?= $(eval PYTHONDIR := $(shell '$(GEOLINT_ROOT)/contrib/library/python-folder' '$(PREFIX)' $(PYTHON)))$(PYTHONDIR)
INSTALL ?= install
VERSION := $(shell cat '$(GEOLINT_ROOT)/VERSION')

.PHONY: library install-library uninstall-library
library: $(LIBRARY_BUILD)/libgeolint.a $(LIBRARY_BUILD)/libgeolint.so

# Proves the crate and those below it, where they are not proved yet.
sources := $(shell find $(GEOLINT_C)/src $(wildcard $(GEOLINT_ROOT)/crates/gj_*/src) -name '*.rt')
$(GEOLINT_C)/out/libgeolint_c.a: $(sources)
	@$(GEOLINT_ROOT)/contrib/build geolint_c
	@touch $@

$(LIBRARY_BUILD)/libgeolint.a: $(GEOLINT_C)/out/libgeolint_c.a
	mkdir -p $(LIBRARY_BUILD)
	cp $< $@

$(LIBRARY_BUILD)/libgeolint.so: $(LIBRARY_BUILD)/libgeolint.a
	$(CC) -shared -Wl,-soname,libgeolint.so.0 -Wl,--whole-archive $< -Wl,--no-whole-archive -o $@

rust := Cargo.toml build.rs src/lib.rs src/findings.rs src/hints.rs src/places.rs tests/linter.rs tests/findings.rs
python := __init__.py __main__.py _build.py _demands.py _findings.py _hints.py _known.py _linter.py _native.py _parts.py _places.py _sources.py _verdict.py dask.py django.py starlette.py py.typed
cmake := geolint-config.cmake geolint-config-version.cmake
# $(call fill,TEMPLATE,FILE): both without what stands before them here.
fill = $(GEOLINT_ROOT)/contrib/library/fill $(GEOLINT_ROOT)/contrib/library/$(1) "$(DESTDIR)$(2)" '$(PREFIX)' '$(LIBDIR)' '$(INCLUDEDIR)' $(VERSION)
imports = (cd / && $(1) -B -c 'import geolint') 2>/dev/null
install-library: library
	$(INSTALL) -d "$(DESTDIR)$(LIBDIR)/pkgconfig" "$(DESTDIR)$(INCLUDEDIR)" "$(DESTDIR)$(PYTHONDIR)"
	$(INSTALL) -m 644 $(LIBRARY_BUILD)/libgeolint.a "$(DESTDIR)$(LIBDIR)"
	$(INSTALL) -m 755 $(LIBRARY_BUILD)/libgeolint.so "$(DESTDIR)$(LIBDIR)/libgeolint.so.0"
	ln -sf libgeolint.so.0 "$(DESTDIR)$(LIBDIR)/libgeolint.so"
	$(INSTALL) -m 644 $(GEOLINT_C)/include/geolint.h $(GEOLINT_C)/include/geolint.hpp "$(DESTDIR)$(INCLUDEDIR)"
	$(INSTALL) -d "$(DESTDIR)$(RUSTDIR)/src" "$(DESTDIR)$(RUSTDIR)/tests"
	cd $(GEOLINT_ROOT)/contrib/library/rust && for file in $(rust); do $(INSTALL) -m 644 $$file "$(DESTDIR)$(RUSTDIR)/$$file" || exit; done
	rm -f "$(DESTDIR)$(PYTHONDIR)/geolint.py"
	$(INSTALL) -d "$(DESTDIR)$(PYTHONDIR)/geolint"
	cd $(GEOLINT_ROOT)/contrib/library/python/geolint && \
		for file in $(python); do $(INSTALL) -m 644 $$file "$(DESTDIR)$(PYTHONDIR)/geolint/$$file" || exit; done
	$(call fill,python/geolint/_native.py,$(PYTHONDIR)/geolint/_native.py)
	$(call fill,geolint.pc.in,$(LIBDIR)/pkgconfig/geolint.pc)
	$(INSTALL) -d "$(DESTDIR)$(LIBDIR)/cmake/geolint"
	for file in $(cmake); do $(call fill,cmake/$$file.in,$(LIBDIR)/cmake/geolint/$$file) || exit; done
	@echo "geolint: the library is in $(DESTDIR)$(LIBDIR), the Python package in $(DESTDIR)$(PYTHONDIR), the Rust crate in $(DESTDIR)$(RUSTDIR)"
	@[ "$(DESTDIR)" ] || $(call imports,$(or $(PYTHON),"$(PREFIX)/bin/python3")) || $(call imports,python3) || \
		echo "geolint: python3 does not look for modules there: PYTHONPATH=$(PYTHONDIR) names the folder, or PYTHON=python3 takes one of its own"

uninstall-library:
	rm -f "$(DESTDIR)$(LIBDIR)/libgeolint.a" "$(DESTDIR)$(LIBDIR)/libgeolint.so" "$(DESTDIR)$(LIBDIR)/libgeolint.so.0"
	rm -f "$(DESTDIR)$(LIBDIR)/pkgconfig/geolint.pc" "$(DESTDIR)$(INCLUDEDIR)/geolint.h" "$(DESTDIR)$(INCLUDEDIR)/geolint.hpp"
	for file in $(python); do rm -f "$(DESTDIR)$(PYTHONDIR)/geolint/$$file"; done
	rm -rf "$(DESTDIR)$(PYTHONDIR)/geolint/__pycache__"
	rmdir "$(DESTDIR)$(PYTHONDIR)/geolint" 2>/dev/null || true
	for file in $(cmake); do rm -f "$(DESTDIR)$(LIBDIR)/cmake/geolint/$$file"; done
	for file in $(rust); do rm -f "$(DESTDIR)$(RUSTDIR)/$$file"; done
