# Builds and installs geolint, geolint-files and geolint-parallel: the programs, their man pages, docs/rules.md and the completions for bash, zsh
# and fish.
#
#     make
#     make test
#     make install PREFIX=$HOME/.local
#     make install DESTDIR=package PREFIX=/usr
#     make uninstall PREFIX=$HOME/.local

PREFIX ?= /usr/local
DESTDIR ?=

to := $(DESTDIR)$(PREFIX)

.PHONY: build test install uninstall
build:
	@contrib/build geolint
	@contrib/build geolint_files

# All checks; with QUICK=1 those that need no proof.
test:
	.ci/run $(if $(QUICK),--quick)

install: build
	install -D -m 755 crates/geolint/out/geolint "$(to)/bin/geolint"
	install -D -m 755 crates/geolint_files/out/geolint_files "$(to)/bin/geolint-files"
	install -D -m 755 contrib/geolint-parallel "$(to)/bin/geolint-parallel"
	install -D -m 644 docs/rules.md "$(to)/share/doc/geolint/rules.md"
	contrib/options install "$(to)/share"

uninstall:
	rm -f "$(to)"/bin/geolint "$(to)"/bin/geolint-files "$(to)"/bin/geolint-parallel "$(to)/share/doc/geolint/rules.md"
	contrib/options uninstall "$(to)/share"

# What each public item promises, from the sources: docs/contracts.md. It needs no rt.
.PHONY: contracts
contracts:
	@docs/contracts

# The copy of the libraries in plain Rust, to measure and to compare: bench/plain/run. It needs no rt.
PLAIN ?= out/plain
.PHONY: plain
plain:
	@bench/plain/copy $(PLAIN)
	@cd $(PLAIN) && RUSTC_BOOTSTRAP=1 cargo build --quiet --release --offline
	@echo "make plain: THIS PROVES NOTHING. $(PLAIN) has the libraries without contracts, to measure them: use none of it for anything else."

# The library for C: `make library`, `make install-library`.
include contrib/library.mk

# Packages: `make dist`, `make release`.
include contrib/dist.mk

# The page, the package for npm, the extension for VS Code and the plugin for QGIS: `make web`, `make npm`, `make vscode`, `make qgis`.
include contrib/web.mk

# The library and the programs for another machine: `make library TARGET=windows`, `make programs TARGET=windows`.
include contrib/targets.mk
