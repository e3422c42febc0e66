# The library for C, the tool over it, and `bootreport`.
#
#   make                             target/tealsettle, target/libtealsettle.a and target/bin/bootreport
#   make proofs                      proves every crate, tries every must-fail edit, runs every program: `rt ci`
#   make check                       tests what is made of the proved crates
#   make install PREFIX=/usr/local   tool, man page, header, library and pkg-config file; DESTDIR goes before PREFIX
#
# The library and bootreport are proved while they are made, by the Rattle kit's `rt`.

PREFIX ?= /usr/local
CFLAGS ?= -O2
override CFLAGS += -std=c11 -Wall -Wextra
prefix := $(DESTDIR)$(PREFIX)

PROVED := crates.txt $(shell find crates -name out -prune -o '(' -name '*.rt' -o -name '*.antt' ')' -print)
PARTS := $(patsubst library/%.c,target/library/%.o,$(wildcard library/*.c))
OBJECTS := $(patsubst tools/%.c,target/tools/%.o,$(wildcard tools/*.c))
VERSION := $(shell sed -n 's/^.define TEALSETTLE_VERSION "\(.*\)"$$/\1/p' include/tealsettle.h)

all: target/tealsettle target/libtealsettle.a target/bin/bootreport

# The program, which is run once as it is made, and then the proved part of the library: each with what stands below it.
target/bin/bootreport: $(PROVED)
	@mkdir -p target/bin
	@echo "rt run: proves bootreport and makes it (target/bootreport.log)"
	@cd crates/bootreport && rt run <stdin >../../target/bootreport.out 2>../../target/bootreport.log || { cat ../../target/bootreport.log; exit 1; }
	@cmp target/bootreport.out crates/bootreport/stdout
	@cp crates/bootreport/out/bootreport $@

target/libtealsettle_c.a: target/bin/bootreport
	@mkdir -p target
	@echo "rt lib: proves the functions for C and makes their archive (target/tealsettle_c.log)"
	@cd crates/tealsettle_c && rt lib >../../target/tealsettle_c.log 2>&1 || { cat ../../target/tealsettle_c.log; exit 1; }
	@cp crates/tealsettle_c/out/libtealsettle_c.a $@

# The part of the library that is plain C. Position-independent, as the rest is, so that it can be put into a shared library.
target/library/%.o: library/%.c include/tealsettle.h
	@mkdir -p target/library
	$(CC) $(CFLAGS) $(CPPFLAGS) -fPIC -c -o $@ $<

target/libtealsettle.a: target/libtealsettle_c.a $(PARTS)
	rm -rf $@ target/parts
	mkdir -p target/parts
	cd target/parts && ar x ../libtealsettle_c.a
	ar rcs $@ target/parts/*.o $(PARTS)

target/tools/%.o: tools/%.c tools/tool.h include/tealsettle.h
	@mkdir -p target/tools
	$(CC) $(CFLAGS) $(CPPFLAGS) -c -o $@ $<

target/tealsettle: $(OBJECTS) target/libtealsettle.a
	$(CC) $(CFLAGS) $(LDFLAGS) -o $@ $^

install: all
	install -d '$(prefix)/bin' '$(prefix)/include' '$(prefix)/lib/pkgconfig' '$(prefix)/share/man/man1'
	install -m 755 target/tealsettle '$(prefix)/bin'
	install -m 644 include/tealsettle.h '$(prefix)/include'
	install -m 644 target/libtealsettle.a '$(prefix)/lib'
	install -m 644 tools/tealsettle.1 '$(prefix)/share/man/man1'
	sed 's|@PREFIX@|$(PREFIX)|; s|@VERSION@|$(VERSION)|' tools/tealsettle.pc.in >'$(prefix)/lib/pkgconfig/tealsettle.pc'

proofs:
	rt ci

check: all
	tests/check

clean:
	rm -rf target

.PHONY: all install proofs check clean
