# make                                the static library and the programs, proved: some minutes
# make test                           every test
# make install PREFIX=.. DESTDIR=..   header, library and programs, once they are made
# make uninstall PREFIX=.. DESTDIR=..

PREFIX = /usr/local
DESTDIR =
PROGRAMS = bankplan bankrun bankwrite banktake

INCLUDE = $(DESTDIR)$(PREFIX)/include
LIB = $(DESTDIR)$(PREFIX)/lib
BIN = $(DESTDIR)$(PREFIX)/bin

.PHONY: all test install uninstall

all:
	bash scripts/build.sh host $(PROGRAMS)

test:
	bash scripts/test.sh

install:
	@for f in target/staticlib/libbankplan.a $(PROGRAMS:%=target/bin/%); do \
		[ -f $$f ] || { echo "missing: $$f; run make first" >&2; exit 1; }; \
	done
	mkdir -p "$(INCLUDE)" "$(LIB)" "$(BIN)"
	cp -f include/bankplan.h "$(INCLUDE)/bankplan.h"
	cp -f target/staticlib/libbankplan.a "$(LIB)/libbankplan.a"
	chmod 644 "$(INCLUDE)/bankplan.h" "$(LIB)/libbankplan.a"
	for f in $(PROGRAMS); do cp -f target/bin/$$f "$(BIN)/$$f" && chmod 755 "$(BIN)/$$f" || exit 1; done

uninstall:
	rm -f "$(INCLUDE)/bankplan.h" "$(LIB)/libbankplan.a"
	for f in $(PROGRAMS); do rm -f "$(BIN)/$$f"; done
