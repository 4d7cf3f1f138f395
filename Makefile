# Builds the library for C, static and shared, and the program kterc; installs them; runs the tests of the hosts. Everything that is
# built stands in target/. The proofs need the Rattle toolchain (rt), all else a C compiler.
#
#   make            the libraries target/lib/libkterc.a and libkterc.so, and the program target/host
#   make install    under PREFIX (and DESTDIR): program, libraries, header, kterc.pc and man pages; make uninstall removes them
#   make test       the tests of the program, of the installation and of the Python tools
#   make pictures   the pictures of the documents
#   make clean      removes what was built here, but not what was proved

CFLAGS ?= -O2
PREFIX ?= /usr/local
PYTHON ?= python3
RT ?= rt

VERSION := $(shell sed -n 's/^.define KTERC_VERSION "\(.*\)"$$/\1/p' include/kterc.h)
SONAME := libkterc.so.$(firstword $(subst ., ,$(VERSION)))
CALLS := $(shell sed -n 's/^[a-z].*\(kterc_[a-z_]*\).*/\1/p' include/kterc.h)

# The proved archive, and what is proved for it: source, specs and proofs of kterc_c_c and of the crates below it, which stand above
# its line in crates.txt. Folders count too, so that a file that was removed is noticed.
PROVED := target/staticlib/libkterc_c.a
CRATES := $(shell tac crates.txt | \
    awk -F '[: ]+' 'BEGIN { need["kterc_c_c"] } $$1 in need { print $$1; for (i = 2; i <= NF; i++) need[$$i] }')
PROVED_FROM := crates.txt $(shell find $(wildcard $(foreach part,src specs proofs,$(CRATES:%=crates/%/$(part)))))

LIBRARY := target/lib/libkterc.a
SHARED := target/lib/libkterc.so.$(VERSION)
LINKS := target/lib/$(SONAME) target/lib/libkterc.so
PROGRAM := target/host

objects = $(patsubst hosts/%.c,target/obj/%.o,$(wildcard hosts/$(1)/*.c))
TEXT_OBJECTS := $(call objects,library)
PROGRAM_OBJECTS := $(call objects,c)
DIFFERENTIAL_OBJECTS := $(call objects,differential) $(call objects,reference)
BENCH_REFERENCES := target/obj/bench/reference_o2.o target/obj/bench/reference_o3.o

COMPILE = $(CC) $(CFLAGS) -std=c11 -Wall -Wextra -Iinclude -MMD -MP -c -o $@ $<
LINK = $(CC) $(CFLAGS) $(LDFLAGS) -o $@ $^

.DELETE_ON_ERROR:
.PHONY: all lib install uninstall test test-c test-python pictures clean

all: lib $(PROGRAM)
	@:

lib: $(LIBRARY) $(SHARED) $(LINKS)
	@:

$(PROVED): $(PROVED_FROM)
	@mkdir -p $(@D)
	cd crates/kterc_c_c && $(RT) lib > ../../target/library.log 2>&1 || { cat ../../target/library.log >&2; exit 1; }
	cp crates/kterc_c_c/out/libkterc_c_c.a $@

$(LIBRARY): $(PROVED) $(TEXT_OBJECTS)
	@mkdir -p $(@D)
	cp $(PROVED) $@
	$(AR) rs $@ $(TEXT_OBJECTS)

$(SHARED): $(PROVED) $(TEXT_OBJECTS) hosts/library/exports.map
	@mkdir -p $(@D)
	$(CC) $(CFLAGS) $(LDFLAGS) -shared -Wl,-soname,$(SONAME) -Wl,--version-script=hosts/library/exports.map -o $@ \
	    -Wl,--whole-archive $(PROVED) -Wl,--no-whole-archive $(TEXT_OBJECTS)

$(LINKS): $(SHARED)
	ln -sf $(<F) $@

$(PROGRAM): $(PROGRAM_OBJECTS) $(LIBRARY)
	$(LINK)

target/differential: $(DIFFERENTIAL_OBJECTS) $(LIBRARY)
	$(LINK)

target/obj/library/%.o: hosts/library/%.c
	@mkdir -p $(@D)
	$(COMPILE) -fPIC

target/obj/differential/%.o: hosts/differential/%.c
	@mkdir -p $(@D)
	$(COMPILE) -Ihosts/reference

target/obj/%.o: hosts/%.c
	@mkdir -p $(@D)
	$(COMPILE)

# The benchmark is compiled by gcc at fixed levels, so that its times can be compared.
target/bench: target/obj/bench/bench.o $(BENCH_REFERENCES) $(LIBRARY)
	gcc -o $@ $^

target/obj/bench/bench.o: bench/bench.c
	@mkdir -p $(@D)
	gcc -O2 -std=c11 -Wall -Wextra -Iinclude -Ihosts/reference -MMD -MP -c -o $@ $<

$(BENCH_REFERENCES): target/obj/bench/reference_o%.o: hosts/reference/reference.c
	@mkdir -p $(@D)
	gcc -O$* -std=c11 -DPLANNER=planner_o$* -MMD -MP -c -o $@ $<

-include $(wildcard target/obj/*/*.d)

# ---- installation

BIN := $(DESTDIR)$(PREFIX)/bin
LIB := $(DESTDIR)$(PREFIX)/lib
INCLUDE := $(DESTDIR)$(PREFIX)/include
MAN := $(DESTDIR)$(PREFIX)/share/man

install: all
	install -d $(BIN) $(LIB)/pkgconfig $(INCLUDE) $(MAN)/man1 $(MAN)/man3
	install -m 755 $(PROGRAM) $(BIN)/kterc
	install -m 644 $(LIBRARY) $(SHARED) $(LIB)
	ln -sf $(notdir $(SHARED)) $(LIB)/$(SONAME)
	ln -sf $(notdir $(SHARED)) $(LIB)/libkterc.so
	sed -e 's|@PREFIX@|$(PREFIX)|' -e 's|@VERSION@|$(VERSION)|' -e '/^#/d' hosts/library/kterc.pc.in > $(LIB)/pkgconfig/kterc.pc
	chmod 644 $(LIB)/pkgconfig/kterc.pc
	install -m 644 include/kterc.h $(INCLUDE)
	install -m 644 man/kterc.1 $(MAN)/man1
	install -m 644 man/kterc.3 $(MAN)/man3
	for call in $(CALLS); do ln -sf kterc.3 $(MAN)/man3/$$call.3 || exit 1; done

uninstall:
	rm -f $(BIN)/kterc $(LIB)/libkterc.a $(LIB)/libkterc.so.$(VERSION) $(LIB)/$(SONAME) $(LIB)/libkterc.so
	rm -f $(LIB)/pkgconfig/kterc.pc $(INCLUDE)/kterc.h $(MAN)/man1/kterc.1 $(MAN)/man3/kterc.3 $(CALLS:%=$(MAN)/man3/%.3)

# ---- tests

test: test-c test-python

test-c: all
	hosts/c/test

test-python: lib
	$(PYTHON) -m pytest -q hosts/python/tests

pictures: lib
	$(PYTHON) hosts/python/pictures.py

clean:
	rm -rf target/lib target/obj
	rm -f $(PROGRAM) target/differential target/bench target/library.log
