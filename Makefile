# make            proves every crate, builds the programs and the library, and runs each program on its stored input
# make run        proves and builds the programs, and runs `build` on a sample card; CARD=FILE for another card
# make library    proves the calls for C, and writes target/lib/libbelfrymist.a
# make test       passes all tests: the same that the gate runs
# make install    puts programs, library, header, manual pages and pkg-config file below PREFIX, by default /usr/local; DESTDIR goes before it
# make bench      times the compiled library beside the second implementation and plain C
# make soak       compares them on COUNT random calls, by default 10000000; SEED=N for other calls
# make vectors    writes the stored vectors and calls anew from the second implementation
# make samples    lays the sample cards, lists and records out anew from their tables
# make manual     writes the manual page of the calls anew from the header
# make clean      removes target/, where what is made stands; what the kit keeps of its checks stands in crates/*/out
# make help       prints these lines
export CARGO_TARGET_DIR := $(CURDIR)/target/cargo
export CARGO_NET_OFFLINE := true
export BELFRYMIST_LIB := $(CURDIR)/target/lib
export BELFRYMIST_BUILD := $(CURDIR)/target/bin/build
export BELFRYMIST_REPORT := $(CURDIR)/target/cargo/release/report

PROGRAMS := build settle count_builds list2card card2list card2fasta
LIBRARY := target/lib/libbelfrymist.a
SOURCES := crates.txt $(shell find crates -name '*.rt' -o -name '*.antt')
# The first number moves where a caller in C has to change, the second where something is added for one.
VERSION := 1.0
PREFIX ?= /usr/local
export CARD ?= samples/s1.card
COUNT ?= 10000000
SEED ?= 1
there = "$(DESTDIR)$(PREFIX)/$(1)"

.PHONY: all every_crate programs run library test install report bench soak vectors samples manual clean help

all: every_crate programs $(LIBRARY)

every_crate:
	rt all test

programs: $(PROGRAMS:%=target/bin/%)

# Proved and built by running it on its stored input.
target/bin/%: $(SOURCES)
	cd crates/$* && rt run < stdin > /dev/null
	mkdir -p target/bin
	cp crates/$*/out/$* $@

run: programs
	tests/x86 target/bin/build < "$$CARD"

library: $(LIBRARY)

$(LIBRARY): $(SOURCES) tests/archive
	tests/archive target/lib

test:
	.ci/run

install: programs $(LIBRARY)
	install -d $(call there,bin) $(call there,lib/pkgconfig) $(call there,include) $(call there,share/man/man1) $(call there,share/man/man3)
	install -m 755 $(PROGRAMS:%=target/bin/%) $(call there,bin)
	install -m 644 $(LIBRARY) $(call there,lib)
	install -m 644 include/belfrymist.h $(call there,include)
	install -m 644 $(PROGRAMS:%=man/%.1) $(call there,share/man/man1)
	install -m 644 man/belfrymist.3 $(call there,share/man/man3)
	sed -e 's|@PREFIX@|$(PREFIX)|' -e 's|@VERSION@|$(VERSION)|' include/belfrymist.pc.in > target/belfrymist.pc
	install -m 644 target/belfrymist.pc $(call there,lib/pkgconfig)

report:
	cd second && cargo build --release --quiet --bin report

bench: programs $(LIBRARY) report
	cd second && cargo run --release --quiet -p beside --bin bench

soak: $(LIBRARY)
	cd second && cargo run --release --quiet -p beside --bin soak $(COUNT) $(SEED)

vectors:
	cd second && cargo run --release --quiet --bin make_vectors $(CURDIR)/crates/vectors
	cd second && cargo run --release --quiet --bin make_calls $(CURDIR)/crates/calls

samples:
	python3 samples/make.py samples

manual:
	man/from_header.py > man/belfrymist.3.new
	mv man/belfrymist.3.new man/belfrymist.3

clean:
	rm -rf target

help:
	@sed -n 's/^# \(make \)/\1/p' Makefile
