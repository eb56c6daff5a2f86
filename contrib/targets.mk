# The library and the programs for another machine, over the crates that rt has proved:
#
#     make library TARGET=aarch64          # out/library-aarch64: libgeolint.a and .so, for Linux on 64-bit ARM
#     make library TARGET=windows          # out/library-windows: geolint.dll, libgeolint.dll.a, libgeolint.a and the headers
#     make library TARGET=windows-arm64    # out/library-windows-arm64: libgeolint.a, for Windows on 64-bit ARM
#     make programs TARGET=windows         # out/programs-windows: geolint.exe, geolint-files.exe
#     make library TARGET=macos            # out/library-macos: libgeolint.dylib for both processors, geolint.h, geolint.hpp
#
# Each needs rt (the Rattle toolchain) and a compiler for its machine; where that is missing, a line says how to install it.
TARGETS := $(top)/contrib/targets
ARM_CC ?= aarch64-linux-gnu-gcc
WINDOWS_CC ?= x86_64-w64-mingw32-gcc
of_target = $(top)/out/$(1)-$(TARGET)
# $(call built_for,TRIPLE,CRATE,OBJECT)
built_for = $(TARGETS)/build $(1) $(2) $(3)
headers := $(addprefix $(GEOLINT_C)/include/,geolint.h geolint.hpp)

ifdef TARGET
TARGET_LIBRARY := $(call of_target,library)
TARGET_PROGRAMS := $(call of_target,programs)
.PHONY: $(addsuffix -$(TARGET),library programs)
library: library-$(TARGET)

$(addprefix $(TARGET_LIBRARY)/,geolint.h geolint.hpp): $(TARGET_LIBRARY)/%: $(GEOLINT_C)/include/%
	@mkdir -p $(@D)
	cp $< $@

ifeq ($(TARGET),aarch64)
library-aarch64: $(TARGET_LIBRARY)/libgeolint.a $(TARGET_LIBRARY)/libgeolint.so

$(TARGET_LIBRARY)/libgeolint.a: $(GEOLINT_C)/out/libgeolint_c.a
	@$(call built_for,aarch64-unknown-linux-gnu,geolint_c,$@)

$(TARGET_LIBRARY)/libgeolint.so: $(TARGET_LIBRARY)/libgeolint.a
	@$(call needs,$(ARM_CC),gcc-aarch64-linux-gnu libc6-dev-arm64-cross)
	$(ARM_CC) -shared -Wl,-soname,libgeolint.so.0 -Wl,--whole-archive $< -Wl,--no-whole-archive -o $@
endif

# ---- macOS: a library for both of its processors in one file. The linker signs what is for arm64 with no name, which macOS asks for there.
MACOS_LD ?= ld64.lld-14
MACOS_LIPO ?= llvm-lipo-14
ifeq ($(TARGET),macos)
macos_parts := $(foreach it,x86_64 arm64,$(TARGET_LIBRARY)/$(it))
library-macos: $(addprefix $(TARGET_LIBRARY)/,libgeolint.dylib geolint.h geolint.hpp)

$(addsuffix .o,$(macos_parts)): $(GEOLINT_C)/out/libgeolint_c.a $(TARGETS)/build $(TARGETS)/clang
	@$(call built_for,$(basename $(@F))-apple-macos11,geolint_c,$@)

$(addsuffix .dylib,$(macos_parts)): %.dylib: %.o $(TARGETS)/libSystem.tbd
	@$(call needs,$(MACOS_LD),lld-14)
	$(MACOS_LD) -dylib -arch $(*F) -platform_version macos 11.0 11.0 -install_name @rpath/libgeolint.dylib -current_version $(VERSION) \
	    -exported_symbol '_geolint_*' -dead_strip -o $@ $^

$(TARGET_LIBRARY)/libgeolint.dylib: $(addsuffix .dylib,$(macos_parts))
	@$(call needs,$(MACOS_LIPO),llvm-14)
	$(MACOS_LIPO) -create $^ -output $@
endif

# ---- Windows. The same commit gives the same bytes: no time stands in a file.
WINDOWS_LINK := -static -s -Wl,--no-insert-timestamp -Wl,--gc-sections
WINDOWS_AR := $(WINDOWS_CC:gcc=ar)
windows_sources := $(TARGETS)/build $(TARGETS)/clang $(TARGETS)/windows.py

ifneq (,$(filter windows windows-arm64,$(TARGET)))
WINDOWS_TRIPLE := $(if $(filter windows,$(TARGET)),x86_64,aarch64)-w64-windows-gnu

$(TARGET_LIBRARY)/geolint.o: $(GEOLINT_C)/out/libgeolint_c.a $(windows_sources)
	@$(call built_for,$(WINDOWS_TRIPLE),geolint_c,$@)

$(TARGET_LIBRARY)/libgeolint.a: $(TARGET_LIBRARY)/geolint.o
	@rm -f $@
	$(KIT)/toolchain/bin/llvm-ar rcsD $@ $<
endif

ifeq ($(TARGET),windows)
library-windows: $(addprefix $(TARGET_LIBRARY)/,geolint.dll libgeolint.a geolint.h geolint.hpp)

# What the DLL gives are the calls of geolint.h; beside it is written what a compiler links with.
$(TARGET_LIBRARY)/geolint.dll: $(TARGET_LIBRARY)/geolint.o
	@$(call needs,$(WINDOWS_CC),gcc-mingw-w64-x86-64)
	@{ echo EXPORTS; $(WINDOWS_CC:gcc=nm) -g --defined-only $< | awk '/ T geolint_/ { print $$3 }'; } >$(@D)/geolint.def
	$(WINDOWS_CC) -shared $(WINDOWS_LINK) $< $(@D)/geolint.def -Wl,--out-implib,$(@D)/libgeolint.dll.a -o $@

.PHONY: programs
programs: $(TARGET_PROGRAMS)/geolint.exe $(TARGET_PROGRAMS)/geolint-files.exe

proved_programs := $(foreach it,geolint geolint_files,$(top)/crates/$(it)/out/$(it))
.PHONY: FORCE
$(proved_programs): FORCE
	@$(top)/contrib/build $(@F)

$(TARGET_PROGRAMS)/%.o: $(proved_programs) $(windows_sources)
	@$(call built_for,$(WINDOWS_TRIPLE),$*,$@)

$(TARGET_PROGRAMS)/windows.o: $(TARGETS)/windows.c
	@$(call needs,$(WINDOWS_CC),gcc-mingw-w64-x86-64)
	@mkdir -p $(@D)
	$(WINDOWS_CC) -std=c11 -O2 -Wall -Wextra -Werror -c $< -o $@

# As much stack as Linux gives.
$(TARGET_PROGRAMS)/geolint.exe: $(TARGET_PROGRAMS)/geolint.o
$(TARGET_PROGRAMS)/geolint-files.exe: $(TARGET_PROGRAMS)/geolint_files.o
$(TARGET_PROGRAMS)/geolint.exe $(TARGET_PROGRAMS)/geolint-files.exe: $(TARGET_PROGRAMS)/windows.o
	$(WINDOWS_CC) $(WINDOWS_LINK) -Wl,--stack,8388608 $(filter %.o,$^) -o $@
else ifeq ($(TARGET),windows-arm64)
library-windows-arm64: $(addprefix $(TARGET_LIBRARY)/,libgeolint.a geolint.h geolint.hpp)
else ifeq (,$(filter aarch64 macos,$(TARGET)))
$(error TARGET is aarch64, macos, windows or windows-arm64, or is not given for the library of this machine)
endif
endif
