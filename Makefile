# make: builds the host and the panel's program. make library: builds the library for C alone. make install PREFIX= DESTDIR=: puts them, the library,
# the manual and completion there. make check: tries the host. All of it is in scripts; nothing here installs a package.
PREFIX ?= /usr/local
DESTDIR ?=

all:
	hosts/build.sh
	hosts/build-panel.sh

install:
	PREFIX="$(PREFIX)" DESTDIR="$(DESTDIR)" hosts/install.sh

library:
	shell/library.sh

check:
	hosts/test.sh

.PHONY: all install library check
