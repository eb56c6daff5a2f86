# A rule for make: `include contrib/geojson.mk` and let a target need `check-geojson`. A file is checked again if it is newer
# than its stamp, which is in $(GEOJSON_STAMPS), and if the program or its flags are not those of last time. What does not pass is
# reported with its line and column, as a compiler does, so an editor that runs make goes there.
#
#     GEOJSON := $(wildcard data/*.geojson)
#     GEOLINT := path/to/bin/geolint-files
#     GEOLINT_FLAGS := --strict --allow W4,W9
#     include path/to/contrib/geojson.mk
#
# make takes a name with a space as two, and this cannot see that. A name with a character that make or a shell reads is refused. Give
# the folder of such files to geolint-files itself.

GEOLINT ?= geolint-files
GEOJSON_STAMPS ?= .geojson
GEOLINT_FLAGS ?=

$(foreach it,! " $$ % & ' ( ) * : ; < > ? [ \ ] ` { | } ~,$(if $(findstring $(it),$(GEOJSON)),\
	$(error make cannot check a file with $(it) in its name: give its folder to geolint-files itself)))

.PHONY: check-geojson geojson-each-time
check-geojson: $(GEOJSON:%=$(GEOJSON_STAMPS)/%.ok)

# What the files are checked by. It is written, and so newer than the stamps, only if it changes.
geojson-judge := '$(subst ','\'',$(GEOLINT) $(GEOLINT_FLAGS))'
$(GEOJSON_STAMPS)/judged-by: geojson-each-time
	@mkdir -p '$(@D)'
	@printf '%s\n' $(geojson-judge) | cmp -s - '$@' || printf '%s\n' $(geojson-judge) >'$@'

$(GEOJSON_STAMPS)/%.ok: % $(GEOJSON_STAMPS)/judged-by
	@mkdir -p '$(@D)'
	@$(GEOLINT) $(GEOLINT_FLAGS) -- '$<'
	@touch '$@'
