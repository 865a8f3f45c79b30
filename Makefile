# Installs the release that scripts/release has packed.
.RECIPEPREFIX = >
.PHONY: help install uninstall
release = dist/pethuvazh-$(shell cat VERSION)-x86_64-linux-gnu.tar.gz

help:
> @echo 'usage: make install [PREFIX=/usr/local] [DESTDIR=], or make uninstall; scripts/release packs what is installed'

install uninstall: $(release)
> @room=$$(mktemp -d) && trap 'rm -rf "$$room"' EXIT \
>   && tar -xzf $(release) -C "$$room" --strip-components=1 && $(MAKE) --no-print-directory -C "$$room" $@

$(release):
> @echo '$@ is missing: scripts/release packs it' >&2; exit 1
