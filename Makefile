# The archive for C, its header, the programs and their pages, built and installed.
#
#   make                               proves and builds all that is installed; needs rt, the command of the Rattle kit
#   make install PREFIX=/usr/local     installs it; what is built already needs no rt
#   make install DESTDIR=.. PREFIX=..  the same below the folder DESTDIR, for packages
PREFIX = /usr/local
DESTDIR =
INSTALL = install

to = $(DESTDIR)$(PREFIX)
own = $(to)/libexec/lomphachit
ARCHIVE = target/staticlib/liblomphachit.a
BINARIES = target/bin/listing target/bin/writing
PROGRAMS = programs/fi-to-lines programs/lines-to-fi programs/xml-to-lines programs/lines-to-xml programs/fi-check
SOURCES := crates.txt $(shell find crates -type f \( -name '*.rt' -o -name '*.antt' \) -not -path 'crates/theorems/*' -not -path '*/out/*')

all: $(ARCHIVE) $(BINARIES) controller

$(ARCHIVE): $(SOURCES)
	programs/shared/prove --for make --archive
	@touch $@

target/bin/%: $(SOURCES)
	programs/shared/prove --for make $*
	@touch $@

controller: $(ARCHIVE)
	$(MAKE) -C controller

install: all
	$(INSTALL) -d "$(to)/bin" "$(own)" "$(to)/include" "$(to)/lib" "$(to)/share/man/man1" "$(to)/share/man/man3"
	$(INSTALL) -m 755 $(PROGRAMS) "$(to)/bin"
	$(INSTALL) -m 755 $(BINARIES) controller/controller "$(own)"
	$(INSTALL) -m 644 programs/shared/run "$(own)"
	$(INSTALL) -m 644 include/lomphachit.h "$(to)/include"
	$(INSTALL) -m 644 $(ARCHIVE) "$(to)/lib"
	$(INSTALL) -m 644 man/man1/*.1 "$(to)/share/man/man1"
	$(INSTALL) -m 644 man/man3/*.3 "$(to)/share/man/man3"

clean:
	$(MAKE) -C controller clean

.PHONY: all controller install clean
