# make: proves and builds the programs, as bin/oer and bin/oer-dump
# make quick: proves and tests all but the wrong bodies, over what earlier runs kept, for use before a commit
# make test: the whole gate, then the commands that the documents show, what a release has, and memory refused in turn
# make test_programs: runs the programs by the tables of rows in tests/ and of oer_vectors, on devices that fail, on the modules in tests/modules, and beside Wireshark
# make lib: proves and builds the library for C and C++, in lib/
# make test_lib: tests it from C, C++, Rust and Python; OER_STRINGS=20000 tries so many random strings of octets, else a million in C and 100,000 in each other language
# make bench: the instructions and the memory of our codec and of a plain one, side by side, and how they grow (docs/PERFORMANCE.md)
# make install PREFIX=.. DESTDIR=..: programs, library, manual, completions, documents and examples, under PREFIX; make uninstall: takes them away
# make dist: the archive of a release, in out/
# make deb, make wheel: Debian packages, and a wheel for Python with the library in it, in out/
# make test_packages: tries these, the crate for Rust, and what CMake reads
PREFIX ?= /usr/local

.PHONY: all quick test bench documents test_programs lib test_lib install uninstall dist deb wheel test_packages clean

all: bin/toolchain

sources := crates.txt $(shell find crates -name out -prune -o -type f \( -name '*.rt' -o -name '*.antt' \) -print)

bin/oer: $(sources)
	@tools/build

lib/liboer.a: include/oer.h $(sources)
	@tools/lib

# The line of the toolchain that proved what is beside it.
bin/toolchain: bin/oer
lib/toolchain: lib/liboer.a
bin/toolchain lib/toolchain:
	@rt version > $@ || { rm $@; exit 1; }

quick:
	@tools/quick

test:
	@tools/gate

documents: bin/oer
	@examples/check

test_programs: bin/oer
	@tools/test_programs bin
	@tools/test_devices bin
	@tools/test_modules bin
	@tools/test_modules bin --published
	@tools/test_input bin
	@tools/test_lines bin
	@tools/test_example bin
	@tools/test_compare bin
	@tools/test_explain bin
	@tools/test_wireshark bin

lib: lib/toolchain

test_lib: lib/liboer.a
	@tools/test_lib
	@tools/test_bindings lib

bench:
	@bench/report

install: bin/toolchain lib/toolchain
	@rm -rf out/layout
	@tools/layout out/layout
	@PREFIX="$(PREFIX)" DESTDIR="$(DESTDIR)" tools/install out/layout

uninstall:
	@PREFIX="$(PREFIX)" DESTDIR="$(DESTDIR)" tools/uninstall

dist: bin/toolchain lib/toolchain
	@tools/dist

deb: bin/toolchain lib/toolchain
	@tools/deb

wheel: bin/toolchain lib/toolchain
	@tools/wheel

test_packages: bin/toolchain lib/toolchain
	@tools/test_packages

clean:
	rm -rf bin lib out crates/*/out
