# make: proves and builds the programs; make check: the whole gate; make install PREFIX=/usr/local
# make examples: runs the examples of docs/; make compare: times objconv beside objcopy
# make tools: tries objconv with the tools on the machine (docs/TRIED.md)
# make dist: packs the programs, manual pages, pages and examples in build/
# make refuse-memory: runs jobs with each of their allocations refused in turn, alone and with all later ones
# make library: proves and builds the library for C; make try-library: compares it with objconv (docs/EMBEDDING.md)

# the version, which also stands on the manual pages
VERSION = 1.0
PREFIX ?= /usr/local
PROGRAMS = objconv objlink objbatch objlist

SOURCES = $(shell find crates -path '*/out' -prune -o -type f -print) crates.txt scripts/build-programs

.PHONY: programs check examples compare tools refuse-memory library try-library install dist clean
programs: $(PROGRAMS:%=build/%)

# all four come of one run (grouped targets, GNU make 4.3)
$(PROGRAMS:%=build/%) &: $(SOURCES)
	scripts/build-programs build

library: build/libobjconv.a
build/libobjconv.a: $(SOURCES) library/build | $(PROGRAMS:%=build/%)
	cd crates/objconv_c && rt all check --jobs $$(nproc)
	library/build build

check:
	.ci/run

examples: programs library
	docs/check-examples build
	$(MAKE) install DESTDIR= PREFIX=$(CURDIR)/build/installed
	library/run-examples build/installed

compare: build/objconv
	bench/compare build/objconv

tools: build/objconv build/objlink build/objbatch
	tools/plant-faults build/objconv build/objlink
	tools/try-tools --kept=build/tried.json --table=build/tried.md build/objconv build/objlink
	tools/try-libraries build

refuse-memory: programs
	bench/refuse-memory build

try-library: build/objconv library
	library/try-library build/objconv build/libobjconv.a library

install: programs library
	for program in $(PROGRAMS); do \
		install -D build/$$program $(DESTDIR)$(PREFIX)/bin/$$program && \
		install -D -m 644 docs/$$program.1 $(DESTDIR)$(PREFIX)/share/man/man1/$$program.1 || exit 1; \
	done
	install -D scripts/objlib $(DESTDIR)$(PREFIX)/bin/objlib
	install -D -m 644 docs/objlib.1 $(DESTDIR)$(PREFIX)/share/man/man1/objlib.1
	install -D -m 644 build/libobjconv.a $(DESTDIR)$(PREFIX)/lib/libobjconv.a
	install -D -m 644 library/objconv.h $(DESTDIR)$(PREFIX)/include/objconv.h
	install -d $(DESTDIR)$(PREFIX)/lib/pkgconfig
	sed 's|@PREFIX@|$(PREFIX)|' library/objconv.pc.in > $(DESTDIR)$(PREFIX)/lib/pkgconfig/objconv.pc
	install -D -m 644 docs/objconv.3 $(DESTDIR)$(PREFIX)/share/man/man3/objconv.3

dist: programs
	scripts/dist build $(VERSION) $(PROGRAMS)

clean:
	rm -rf build
