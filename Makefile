# make                             proves and builds the programs `rows` and `sums` and the library for C
# make install PREFIX=/usr/local   puts them, and the header, into bin, lib and include of PREFIX; DESTDIR, if given, goes before it
#
# target/bin/NAME is a program of crates/NAME, and target/staticlib/libNAME.a a library for C: `rt` proves and builds each in the folder of its crate.
PREFIX = /usr/local
PROGRAMS = target/bin/rows target/bin/sums
LIBRARY = target/staticlib/libinstaller.a
SOURCES := crates.txt $(shell find crates -path '*/out' -prune -o \( -name '*.rt' -o -name '*.antt' \) -print)

all: $(PROGRAMS) $(LIBRARY)

target/bin/%: $(SOURCES)
	cd crates/$* && rt run < /dev/null
	install -D crates/$*/out/$* $@

target/staticlib/lib%.a: $(SOURCES)
	cd crates/$* && rt lib
	install -D -m 644 crates/$*/out/lib$*.a $@

install: all
	install -D -m 755 -t $(DESTDIR)$(PREFIX)/bin $(PROGRAMS)
	install -D -m 644 $(LIBRARY) $(DESTDIR)$(PREFIX)/lib/libinstaller.a
	install -D -m 644 include/rows.h $(DESTDIR)$(PREFIX)/include/rows.h

.PHONY: all install
.NOTPARALLEL:
