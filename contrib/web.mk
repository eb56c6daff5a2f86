# The page, the package for npm, the extension for VS Code and the plugin for QGIS: each over the proved crates, as the library for C is.
#
#     make web       # web/index.html, the page as one file, with the module in it
#     make npm       # out/npm/geolint-VERSION.tgz, the package: geolint.js with the module, and two commands
#     make vscode    # out/vscode/geolint-VERSION.vsix, the extension
#     make qgis      # out/qgis/geolint_qgis-VERSION.zip, the plugin, which needs nothing but the library
#
# They need rt (the Rattle toolchain) and binaryen, the page also terser and Python's package markdown; where one is missing, a line says how
# to install it.
top := $(abspath $(GEOLINT_ROOT))
WEB := $(top)/contrib/web
LSP := $(top)/contrib/lsp
WEB_OUT ?= $(top)/web
WEB_BUILD ?= $(top)/out/web
NPM_BUILD ?= $(top)/out/npm
KIT = $(patsubst %/bin/rt,%,$(realpath $(shell command -v rt)))
# A Python that has the package markdown, where there is one.
WEB_PYTHON ?= $(or $(shell for it in python3 /usr/bin/python3; do $$it -c 'import markdown' 2>/dev/null && echo $$it && break; done),python3)

.PHONY: web npm
web: $(WEB_OUT)/index.html

# needs COMMAND PACKAGES: says how to install what is missing.
needs = command -v $(1) >/dev/null || { echo "geolint: there is no command $(firstword $(1)): apt-get install $(2)" >&2; exit 1; }

# The source works on vectors of 16 bytes. For WebAssembly the kit's clang compiles them to loops over bytes, unless it knows that the
# engine has vectors: so contrib/targets says so. Each browser that docs/web.md names has them.
$(WEB_BUILD)/libgeolint_c.a: $(GEOLINT_C)/out/libgeolint_c.a $(wildcard $(top)/contrib/targets/*)
	@$(top)/contrib/targets/build wasm64-unknown-unknown geolint_c $@

$(WEB_BUILD)/geolint_64.wasm: $(WEB_BUILD)/libgeolint_c.a
	$(KIT)/bin/rattle-link --target wasm64-unknown-unknown --toolchain $(KIT)/toolchain -o $@ $<

# The calls of geolint.h that no script makes. They are left out of the module, of which geolint_check alone is a seventh.
web_unused := check|offset|features_offset|records_offset|features_begin_again|records_begin_again|hint_text|lines_begin|run_\w+|join_\w+
# Not every browser has memories with 64-bit addresses, so they are lowered to 32 bits.
# LLVM has put into their callers the functions that are worth it. More of it by binaryen makes the page 2 kB larger, and not faster.
# `-s 1` makes the module half a kilobyte smaller as the page holds it.
$(WEB_BUILD)/geolint.wasm: $(WEB_BUILD)/geolint_64.wasm $(WEB)/plain-loads
	@$(call needs,wasm-opt,binaryen)
	wasm-dis --all-features $< | grep -vE '^ *\(export "geolint_($(web_unused))"' | $(WEB)/plain-loads >$(WEB_BUILD)/plain.wat
	wasm-opt --all-features $(WEB_BUILD)/plain.wat --memory64-lowering -O3 -s 1 --converge --one-caller-inline-max-function-size 200 -o $@

$(WEB_OUT)/index.html: $(WEB_BUILD)/geolint.wasm $(wildcard $(WEB)/*) $(top)/docs/rules.md
	@$(call needs,terser,terser)
	@mkdir -p $(WEB_OUT)
	$(WEB_PYTHON) $(WEB)/build $< $@
	@echo "geolint: the page is $@, $$(($$(gzip -9c $@ | wc -c) / 1000)) kB as a server sends it" >&2

npm: $(WEB_BUILD)/geolint.wasm
	@$(call needs,npm,npm)
	rm -rf $(NPM_BUILD)
	mkdir -p $(NPM_BUILD)/package
	modules=$$($(WEB)/scripts.py geolint geolint-files geolint-language-server) && \
	    cp $$modules $(addprefix $(top)/,contrib/web/geolint.d.ts contrib/npm/README.md contrib/npm/package.json docs/rules.md) $< $(NPM_BUILD)/package
	$(top)/contrib/options json geolint-files >$(NPM_BUILD)/package/options.json
	sed -i 's|@VERSION@|$(VERSION)|' $(NPM_BUILD)/package/package.json
	cd $(NPM_BUILD)/package && npm pack --silent --pack-destination ..

VSIX ?= $(top)/out/vscode/geolint-$(VERSION).vsix
VSCODE := $(top)/contrib/vscode/extension
.PHONY: vscode
vscode: $(VSIX)
$(VSIX): $(WEB_BUILD)/geolint.wasm $(wildcard $(WEB)/* $(LSP)/* $(VSCODE)/*) $(top)/docs/rules.md $(top)/docs/editors.md $(top)/VERSION
	$(VSCODE)/make-vsix $< $@

# With the libraries of other systems that are built.
QGIS := $(top)/contrib/qgis
QGIS_ZIP := $(top)/out/qgis/geolint_qgis-$(VERSION).zip
.PHONY: qgis
qgis: $(QGIS_ZIP)
$(QGIS_ZIP): $(LIBRARY_BUILD)/libgeolint.so $(wildcard $(top)/out/library-windows/geolint.dll $(top)/out/library-macos/libgeolint.dylib) \
    $(wildcard $(QGIS)/* $(QGIS)/plugin/* $(WEB)/*.js $(top)/contrib/library/python/geolint/*.py) $(top)/VERSION
	$(QGIS)/make-plugin $@ $(filter %.so %.dll %.dylib,$^)
