# `make` builds all that a player or a game's developer needs and can be built here, in out/, and says what is missing for the rest.
# `make NAME` builds what meson.build has under that name; `make install` installs libraries and headers. The proved library is the one that
# ./prove made here, or else, as with RELEASE=1, that of the archive in release/. What else is heard stands in build/configure.
OUT ?= out
NAMES := $(or $(filter-out clean install,$(MAKECMDGOALS)),$(if $(filter install,$(MAKECMDGOALS)),installed,all))
export RELEASE FAZGROND_C CC CFLAGS LDFLAGS WERROR SANITIZE PREFIX LIB SECONDS

$(NAMES): built
	@:

built:
	@build/configure $(OUT) $(CROSS)
	@ninja -C $(OUT) $(if $(findstring s,$(firstword -$(MAKEFLAGS))),--quiet) $(NAMES)
	@$(if $(filter all,$(NAMES)),$(TELL))

define TELL
missing=$$(tests/setup --build --missing); [ -z "$$missing" ] || \
    printf '%s\n' "What is missing here, and what isn't built without it (tests/setup --build installs it, as root):" "$$missing"
endef

install: built
	@meson install -C $(OUT) --no-rebuild $(if $(findstring s,$(firstword -$(MAKEFLAGS))),--quiet)

clean:
	rm -rf $(OUT)

.PHONY: $(NAMES) built install clean
