# Needs bash and `rt`, the Rattle toolchain, on PATH. A C compiler, valgrind, pkg-config, rustc, cargo and python3 serve the tests that want
# them.
SHELL := /bin/bash
.SHELLFLAGS := -eu -o pipefail -c

PREFIX ?= /usr/local
FILE ?= examples/zinc.pdb

# Of the library. The first number is the one that programs ask the loader for: it goes up when an entry goes or changes.
version := 0.1.0

# What rt builds of a crate lies in its folder out/, and stays there behind `rt ci` too, but for archives, which that doesn't build.
program := crates/pdblist/out/pdblist
checker := crates/pdbmaster/out/pdbmaster
mender := crates/pdbmend/out/pdbmend
reporter := crates/pdbreport/out/pdbreport
server := crates/serve/out/serve
archive := crates/saltighedda_c/out/libsaltighedda_c.a
timed := crates/bench_read_c/out/libbench_read_c.a
library := target/staticlib/libsaltighedda.a
known := libsaltighedda.so.$(firstword $(subst ., ,$(version)))
shared := target/shared/libsaltighedda.so.$(version)
sources := crates.txt $(shell find crates -name out -prune -o -type f -print)

.NOTPARALLEL:
.PHONY: help list report master mend test needs format contracts hosts compare oracle differential bench install

help:
	@echo 'make list FILE=..        lists the lines of a PDB file, and what could not be read of them'
	@echo 'make report FILE=..      whether a PDB file was read, and where not, for people'
	@echo 'make master FILE=..      whether the lines of a PDB file are as many as its MASTER line says'
	@echo 'make mend FILE=..        the lines of a PDB file, mended as far as that is honest; what was done is told on standard error'
	@echo 'make test                everything that is checked: proofs, must-fail edits, test programs, hosts in C, Rust and Python, a short differential run'
	@echo 'make install PREFIX=..   the programs, the C header and the library, static and shared, with a file for pkg-config'
	@echo 'make differential        ten million lines and a million written records, compared with the Rust (needs rustc, see differential/README.md)'
	@echo 'make bench               how quick it is beside the Rust and plain C (needs rustc and cc, see docs/SPEED.md)'
	@echo 'make format              the layout of the sources alone'
	@echo 'make oracle              builds the Rust as an oracle and runs its own tests'

list: $(program)
	@tools/run $(program) < '$(FILE)'

report: $(reporter)
	@tools/run $(reporter) < '$(FILE)'

master: $(checker)
	@tools/run $(checker) < '$(FILE)'

mend: $(mender)
	@tools/run $(mender) < '$(FILE)'

# Says nothing but what went wrong. A program is built once it is proved, and so is a library.
define quietly
	@mkdir -p $(@D) target/make; log=$$PWD/target/make/$(@F).log; \
	echo "$@ is being proved and built; from nothing that takes minutes" >&2; \
	(cd $(@D)/.. && $(1)) > "$$log" 2>&1 < /dev/null || { cat "$$log" >&2; exit 1; }; \
	touch $@
endef

# A program is run once it is built, here on nothing.
$(program) $(checker) $(mender) $(reporter) $(server): $(sources)
	$(call quietly,rt run)

$(archive) $(timed): $(sources)
	$(call quietly,rt lib)

$(library): $(archive)
	@mkdir -p $(@D); cp $(archive) $@

# Without a C compiler for x86-64 there is none, and that is said.
$(shared): $(library) include/saltighedda.h tools/share tools/entries
	@tools/share $(library) include/saltighedda.h $@ || [ $$? = 3 ]

# What will be left out is told first, and the rest is tried once the proofs hold, the comparison beside the hosts. `rt ci` refuses what isn't laid
# out, and passes must-fail edits that are bad, as it calls those that can't be applied or read: these are no must-fail edits, and not passed here.
# Its own count of what passed and what failed is the last line printed.
test: needs contracts
	@log=$$(mktemp); trap 'rm -f "$$log" "$$log.compared"' EXIT; \
	rt ci | tee "$$log"; \
	grep -q '^rt: ok' "$$log" || { echo 'test: rt ci has no line that begins with rt: ok' >&2; exit 1; }; \
	! grep -qE '^rt: ok.*[1-9][0-9]* bad' "$$log" || { echo 'test: must-fail edits are bad, as rt: ok says' >&2; exit 1; }; \
	$(MAKE) --no-print-directory compare > "$$log.compared" 2>&1 & compared=$$!; \
	$(MAKE) --no-print-directory hosts; \
	wait $$compared || { cat "$$log.compared"; exit 1; }; \
	cat "$$log.compared"; tail -n 1 "$$log"

needs:
	@tests/needs.sh

format:
	@tests/format.sh

contracts:
	@tests/contracts.sh
	@tests/promises.sh
	@tests/believed.sh
	@tests/house.sh
	@tests/margins.sh
	@tests/names.sh

hosts: $(program) $(checker) $(mender) $(reporter) $(library) $(shared)
	@tests/run.sh
	@tests/pdblist.sh
	@tests/pdbmaster.sh
	@tests/pdbmend.sh
	@tests/pdbreport.sh
	@tests/c.sh
	@tests/shared.sh
	@tests/rust.sh
	@tests/python.sh
	@tests/readme.sh

compare: $(server)
	@differential/short.sh

oracle:
	@differential/build.sh --test
	@differential/build.sh

differential: $(server)
	@differential/build.sh
	@target/differential/differential --file examples/zinc.pdb -- tools/run $(server)
	@target/differential/differential --write --file examples/zinc.pdb -- tools/run $(server)

bench:
	@bench/run.sh

install: $(program) $(checker) $(mender) $(reporter) $(library) $(shared)
	@install -d '$(DESTDIR)$(PREFIX)/bin' '$(DESTDIR)$(PREFIX)/include' '$(DESTDIR)$(PREFIX)/lib/pkgconfig'
	@install -m 755 $(program) '$(DESTDIR)$(PREFIX)/bin/pdblist'
	@install -m 755 $(checker) '$(DESTDIR)$(PREFIX)/bin/pdbmaster'
	@install -m 755 $(mender) '$(DESTDIR)$(PREFIX)/bin/pdbmend'
	@install -m 755 $(reporter) '$(DESTDIR)$(PREFIX)/bin/pdbreport'
	@install -m 644 include/saltighedda.h include/saltighedda_fields.h '$(DESTDIR)$(PREFIX)/include'
	@install -m 644 $(library) '$(DESTDIR)$(PREFIX)/lib/libsaltighedda.a'
	@if [ -f $(shared) ]; then \
	    install -m 755 $(shared) '$(DESTDIR)$(PREFIX)/lib/$(notdir $(shared))'; \
	    ln -sf $(notdir $(shared)) '$(DESTDIR)$(PREFIX)/lib/$(known)'; \
	    ln -sf $(known) '$(DESTDIR)$(PREFIX)/lib/libsaltighedda.so'; \
	fi
	@sed 's|@PREFIX@|$(PREFIX)|; s|@VERSION@|$(version)|' saltighedda.pc.in > '$(DESTDIR)$(PREFIX)/lib/pkgconfig/saltighedda.pc'
	@[ "$$(uname -m)" = x86_64 ] || echo "install: the programs and the library are for x86-64, and this machine is $$(uname -m)"
