# The library for C and C++, and the programs: building, testing and installing them. `rt` proves and
# compiles the library and the program outline; a C compiler does the rest, and cargo builds seat.
#
#   make               the library and the program outline-print
#   make outline       proves and builds the program outline: target/bin/outline
#   make example       builds and runs the example
#   make check         the tests of the header, the programs and the installation
#   make install       into PREFIX (/usr/local), below DESTDIR if that is set
#   make seat          the program seat: tools/seat/target/release/seat
#   make install-seat  the same into PREFIX

PREFIX ?= /usr/local
BINDIR ?= $(PREFIX)/bin
LIBDIR ?= $(PREFIX)/lib
INCLUDEDIR ?= $(PREFIX)/include
CC ?= cc
CXX ?= c++
CFLAGS ?= -O2
CXXFLAGS ?= -O2

warnings = -Wall -Wextra -Wconversion -Wsign-conversion -Wshadow -Wpedantic -Werror
c99 = $(CC) -std=c99 $(CFLAGS) $(warnings) -Iinclude
cxx = $(CXX) -std=c++11 -x c++ $(CXXFLAGS) $(warnings) -Iinclude
version := $(shell sed -n 's/.*OUTLINE_VERSION_TEXT "\(.*\)"/\1/p' include/outline.h)

library = target/staticlib/liboutline_c.a
program = target/outline-print
sources := $(shell find crates.txt crates -type f -not -path '*/must-fail/*' -not -path '*/out/*')

seat = tools/seat/target/release/seat

.PHONY: all library outline example check install uninstall seat install-seat uninstall-seat

all: library $(program)

library: $(library)

$(library): $(sources)
	cd crates/outline_c && rt lib
	install -D -m 644 crates/outline_c/out/liboutline_c.a $@

outline: target/bin/outline

target/bin/outline: $(sources)
	cd crates/outline && rt run </dev/null >/dev/null
	install -D -m 755 crates/outline/out/outline $@

$(program): tools/outline-print.c include/outline.h $(library)
	$(c99) $< $(library) -o $@

target/outline_example: examples/c/outline_example.c include/outline.h $(library)
	$(c99) $< $(library) -o $@

target/header_c99: tests/header.c include/outline.h $(library)
	$(c99) $< $(library) -o $@

target/header_cxx: tests/header.c include/outline.h $(library)
	$(cxx) $< -x none $(library) -o $@

example: target/outline_example
	target/outline_example

check: target/header_c99 target/header_cxx target/outline_example $(program)
	target/header_c99
	target/header_cxx
	target/outline_example | cmp - examples/c/output
	tests/print $(program)
	tests/installed

install: all
	install -d '$(DESTDIR)$(BINDIR)' '$(DESTDIR)$(LIBDIR)/pkgconfig' '$(DESTDIR)$(INCLUDEDIR)'
	install -m 755 $(program) '$(DESTDIR)$(BINDIR)/outline-print'
	install -m 644 $(library) '$(DESTDIR)$(LIBDIR)/liboutline_c.a'
	install -m 644 include/outline.h '$(DESTDIR)$(INCLUDEDIR)/outline.h'
	sed -e 's|@PREFIX@|$(PREFIX)|' -e 's|@LIBDIR@|$(LIBDIR)|' -e 's|@INCLUDEDIR@|$(INCLUDEDIR)|' \
	  -e 's|@VERSION@|$(version)|' outline.pc.in >'$(DESTDIR)$(LIBDIR)/pkgconfig/outline.pc'

uninstall:
	rm -f '$(DESTDIR)$(BINDIR)/outline-print' '$(DESTDIR)$(LIBDIR)/liboutline_c.a' \
	  '$(DESTDIR)$(INCLUDEDIR)/outline.h' '$(DESTDIR)$(LIBDIR)/pkgconfig/outline.pc'

seat: $(library)
	cargo build --release --offline --quiet --manifest-path tools/seat/Cargo.toml

install-seat: seat
	install -d '$(DESTDIR)$(BINDIR)'
	install -m 755 $(seat) '$(DESTDIR)$(BINDIR)/seat'

uninstall-seat:
	rm -f '$(DESTDIR)$(BINDIR)/seat'
