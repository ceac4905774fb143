# make builds programs, library and page, without a proof where none is built. make install puts them below PREFIX, with
# manual pages, completion, header and pkg-config file. make release OUT=FOLDER makes packages of a proved tree.
PREFIX ?= /usr/local
LIBDIR ?= $(PREFIX)/lib
OUT ?= out/release
LIBRARY_ARGS = PREFIX='$(PREFIX)' LIBDIR='$(LIBDIR)' DESTDIR='$(DESTDIR)'

all:
	tools/program >/dev/null
	tools/program --sweep >/dev/null
	tools/library
	tools/page

install:
	tools/library
	tools/release --install '$(DESTDIR)$(PREFIX)'
	$(MAKE) -C library install $(LIBRARY_ARGS)

uninstall:
	tools/release --uninstall '$(DESTDIR)$(PREFIX)'
	$(MAKE) -C library uninstall $(LIBRARY_ARGS)

release:
	tools/release '$(OUT)'

.PHONY: all install uninstall release
