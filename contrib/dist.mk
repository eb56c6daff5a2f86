# What anyone can install without the toolchain: `make dist` writes dist/, and `make release` does so for others. docs/packages.md says
# what is in it, and which tools it asks for. OTHERS= leaves out what is for Windows, macOS and QGIS.
OTHERS ?= windows macos qgis
export OTHERS
.PHONY: dist release
dist:
	@contrib/dist/make-dist --tools
	@$(MAKE) --no-print-directory build library
	@$(MAKE) --no-print-directory -j2 web npm library TARGET=aarch64
	@$(if $(OTHERS),$(MAKE) --no-print-directory -j2 library programs TARGET=windows)
	@$(if $(OTHERS),$(MAKE) --no-print-directory -j2 library TARGET=macos)
	@contrib/dist/make-dist

# Nothing is released without a licence, which the owner has to choose.
release:
	@[ -e LICENSE ] || { echo "geolint: no licence is set: make dist is for local use; make release needs the file LICENSE" >&2; exit 2; }
	@$(MAKE) dist
