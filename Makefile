# The words of this repository: `make quick` builds the program without a proof, `make` proves and builds it, and
# `make test` is the gate.

crates := $(shell sed -e 's/[ :].*//' -e '/^#/d' -e '/^$$/d' crates.txt)

# Proves every crate and builds the program.
.PHONY: all
all: toolchain
	cd crates/dwv && rt run -- check data/X1
	@echo "The program is crates/dwv/out/dwv: copy it where you like."

# What proves and builds needs the command of the toolchain.
.PHONY: toolchain
toolchain:
	@command -v rt > /dev/null || { echo "There is no rt on PATH: see README.md, Install, From source." >&2; exit 1; }

# Proves every crate below dwv-addr and builds it.
.PHONY: addr
addr: toolchain
	cd crates/dwv_addr && rt run -- check data/four
	@echo "The program is crates/dwv_addr/out/dwv_addr: make install installs it as dwv-addr."

# Proves the C library and links it into out/, with its header and a file for pkg-config. Only the names dwv_* are
# visible. The toolchain's own archive has its allocator, which calls malloc, and the compiler's has the division of
# numbers of 128 bits.
kit = $(dir $(shell readlink -f "$$(command -v rt)"))..
.PHONY: lib
lib: toolchain
	cd crates/dwv_c && rt lib
	install -d out/lib/pkgconfig out/include
	$(CC) -O2 -fPIC -Iinclude -c include/version.c -o out/lib/version.o
	ld -r --whole-archive crates/dwv_c/out/libdwv_c.a "$(kit)/c/liblibc_c.a" out/lib/version.o --no-whole-archive \
	    "$$($(CC) -print-libgcc-file-name)" -o out/lib/dwv.o
	objcopy --wildcard --keep-global-symbol='dwv_*' out/lib/dwv.o
	rm -f out/lib/libdwv.a
	ar rcsD out/lib/libdwv.a out/lib/dwv.o
	$(CC) -shared -o out/lib/libdwv.so.0 out/lib/dwv.o -Wl,-soname,libdwv.so.0 -Wl,-z,defs,-z,relro,-z,now,-z,noexecstack
	rm out/lib/dwv.o out/lib/version.o
	install -m 644 include/dwv.h out/include
	install -m 644 contrib/dwv.pc out/lib/pkgconfig

# How many checks `make test` runs side by side: one a processor, if there are 3 GB of memory for each, and at least
# one. With RT_JOBS each has one job, which costs the least processor time: jobs that share a check each load all that
# it depends on.
memory = $(shell awk '/MemAvailable/ { print int($$2 / 3000000) }' /proc/meminfo)
fits = $(shell printf '%d\n' $$(nproc) $(memory) | sort -n | head -n 1)
checks = $(if $(filter-out 0,$(fits)),$(fits),1)

# Proves everything from nothing, tries the edits of must-fail/ and a tenth of the others, and runs every test. The rows
# and the examples are also run before the proofs, on the program that is not proved.
.PHONY: test
test: toolchain
	tests/dead-names.py
	tests/reading-order.py
	tests/imports.py
	tests/format-proofs.py --check
	tests/made.py
	tests/calling.py
	$(MAKE) --no-print-directory pytest TESTS=tests/versions.py
	tests/toolchain.sh
	tests/edits.py --apply
	$(MAKE) --no-print-directory quick-test QUICK="rows.py examples.py"
	RT_JOBS=$(checks) tests/prove.py
	$(MAKE) --no-print-directory lib
	@mkdir -p out
	tests/edits.py --tenth --jobs $(checks) > out/tenth.log 2>&1 & tenth=$$!; \
	    $(MAKE) --no-print-directory untimed; status=$$?; \
	    wait $$tenth || status=1; cat out/tenth.log; exit $$status
	tests/hostile_addresses.py
	tests/hostile_lines.py
	tests/hostile_files.py
	tests/sweep.py --part --jobs $(checks)

# The tests that limit no times, which `make test` runs beside the tenth of the edits.
.PHONY: untimed
untimed:
	tests/in-line.py
	tests/rows.py
	tests/examples.py
	tests/real-programs.py
	tests/lines.py
	tests/addresses.py
	tests/refused-growths.py
	tests/endings.py
	tests/check.py
	tests/preparing.py
	tests/explain.py
	tests/explain-html.py
	tests/table.py
	tests/c-header.py
	tests/layouts.py
	$(MAKE) --no-print-directory pytest
	tests/library.sh

# The tests that pytest runs, in whichever Python has it, side by side if that has the module xdist too:
# `make pytest TESTS=tests/install.py`.
TESTS = $(addprefix tests/,binding.py install.py integrations.py packages.py pages.py)
pythons = $(foreach it,python3 /usr/bin/python3,$(shell $(it) -c 'import pytest' 2> /dev/null && echo $(it)))
python = $(or $(firstword $(pythons)),python3)
parallel = $(shell $(python) -c 'import xdist' 2> /dev/null && echo --numprocesses=$(checks))
.PHONY: pytest
pytest:
	PYTHONDONTWRITEBYTECODE=1 $(python) -m pytest $(parallel) $(TESTS)

# Proves what changed, in every crate, over what earlier runs kept.
.PHONY: check
check: toolchain
	rt all check

# Tries the edits of more-edits/, several in one check, and the controls: `make edits EDITS="--all dw_elf"`.
EDITS = --jobs $(checks)
.PHONY: edits
edits:
	tests/edits.py $(EDITS)

# Builds the program without proving it, in about three minutes, for a look and for tests: out/quick/dwv-unproved.
unproved = $(abspath out/quick/dwv-unproved)
.PHONY: quick
quick: toolchain
	tests/quick.py

# The same for the C library: out/quick/lib-unproved has libdwv.a and libdwv.so.0.
.PHONY: quick-lib
quick-lib: toolchain
	tests/quick.py --library

# Runs the tests that need no proof on that program, in about two minutes, or some: `make quick-test QUICK=rows.py`.
# Those of the C library need `make quick-lib` before: `make quick-test QUICK="table.py c-header.py layouts.py"`.
QUICK = rows.py examples.py endings.py hostile_files.py real-programs.py refused-growths.py check.py explain.py \
    explain-html.py
library_unproved = $(abspath $(wildcard out/quick/lib-unproved/libdwv.so.0))
.PHONY: quick-test
quick-test: quick
	@export DWV=$(unproved) $(library_unproved:%=DWV_LIBRARY=%); for it in $(QUICK); do \
	    echo "tests/$$it, by $(unproved), which is NOT PROVED"; log=out/quick/$$it.log; \
	    tests/$$it > $$log || { grep -v ^passed $$log; exit 1; }; tail -n 1 $$log; \
	done

# Runs the program on programs that are broken at random, and compares it with the second reader:
# `make fuzz SECONDS=600`.
SECONDS = 60
.PHONY: fuzz
fuzz: all
	cd crates/slow_check && rt run
	tests/fuzz.py $(SECONDS)

# Runs the program and the calls of the library on files of many entries alike, of each tag, with each child in each
# use, and writes a table of what took longest.
.PHONY: sweep
sweep:
	mkdir -p tests/out
	tests/sweep.py --jobs $(checks) --table tests/out/sweep.md

# Compares the answers of two programs on compiled, hostile and changed files: `make same-answers OLD=/tmp/dwv.old`.
NEW = crates/dwv/out/dwv
.PHONY: same-answers
same-answers:
	tests/same-answers.py $(OLD) $(NEW)

# Installs the program that `make` built, the scripts beside it (as dwv-explain, ..) with the Python package by which
# they call the C library, the manual pages, the completions, the integrations (in share/dwv/integrations), dwv-addr if
# `make addr` built it, and the C library if `make lib` built it. `make install PREFIX=$HOME/.local` chooses the folder. It builds and proves nothing.
# DESTDIR is put before all paths, as packages need it. PYTHON is the interpreter of the scripts: with
# `make install PYTHON=/usr/bin/python3` they run by that one, wherever another stands first in PATH.
PREFIX = /usr/local
PYTHON = /usr/bin/env python3
bin = $(DESTDIR)$(PREFIX)/bin
man = $(DESTDIR)$(PREFIX)/share/man/man1
completions = $(DESTDIR)$(PREFIX)/share/bash-completion/completions
zsh = $(DESTDIR)$(PREFIX)/share/zsh/site-functions
fish = $(DESTDIR)$(PREFIX)/share/fish/vendor_completions.d
share = $(DESTDIR)$(PREFIX)/share/dwv
scripts = c-header check explain
integrations = $(patsubst contrib/%,%,$(wildcard contrib/integrations/*/*))
lib = $(DESTDIR)$(PREFIX)/lib
include = $(DESTDIR)$(PREFIX)/include
library = $(wildcard out/lib/libdwv.a)
addr = $(wildcard crates/dwv_addr/out/dwv_addr)
.PHONY: install
install:
	@[ -x crates/dwv/out/dwv ] || { echo "crates/dwv/out/dwv is not built: run make first." >&2; exit 1; }
	install -d "$(bin)" "$(man)" "$(completions)" "$(zsh)" "$(fish)"
	install -m 755 crates/dwv/out/dwv "$(bin)/dwv"
	install -m 644 docs/dwv.1 "$(man)/dwv.1"
	install -m 644 contrib/dwv.bash "$(completions)/dwv"
	install -m 644 contrib/_dwv "$(zsh)/_dwv"
	install -m 644 contrib/dwv.fish "$(fish)/dwv.fish"
	install -d "$(share)/dwv_tools"
	install -m 755 $(scripts:%=contrib/%) "$(share)"
	sed -i '1s|^#!/usr/bin/env python3$$|#!$(PYTHON)|' $(scripts:%="$(share)/%")
	install -m 644 contrib/dwv_tools/*.py contrib/dwv_tools/*.txt "$(share)/dwv_tools"
	install -d "$(share)/dwv"
	install -m 644 $(filter-out %/tools.py,$(wildcard python/dwv/*.py)) "$(share)/dwv"
	for it in $(integrations); do \
	    install -d "$(share)/$$(dirname $$it)" && \
	    install -m $$([ -x contrib/$$it ] && echo 755 || echo 644) contrib/$$it "$(share)/$$it" || exit 1; \
	done
	for it in $(scripts); do \
	    ln -sf "../share/dwv/$$it" "$(bin)/dwv-$$it" && ln -sf dwv "$(completions)/dwv-$$it" && \
	    ln -sf dwv.1 "$(man)/dwv-$$it.1" || exit 1; \
	done
ifneq ($(addr),)
	install -m 755 $(addr) "$(bin)/dwv-addr"
	install -m 644 docs/dwv-addr.1 "$(man)/dwv-addr.1"
	ln -sf dwv "$(completions)/dwv-addr"
endif
ifneq ($(library),)
	install -d "$(lib)/pkgconfig" "$(include)"
	install -m 644 out/lib/libdwv.a "$(lib)/libdwv.a"
	install -m 755 out/lib/libdwv.so.0 "$(lib)/libdwv.so.0"
	ln -sf libdwv.so.0 "$(lib)/libdwv.so"
	install -m 644 out/include/dwv.h "$(include)/dwv.h"
	install -m 644 out/lib/pkgconfig/dwv.pc "$(lib)/pkgconfig/dwv.pc"
endif

# Removes what `make install` installed, by the same PREFIX and DESTDIR.
.PHONY: uninstall
uninstall:
	rm -f "$(bin)/dwv" "$(man)/dwv.1" "$(completions)/dwv" "$(zsh)/_dwv" "$(fish)/dwv.fish"
	rm -f $(patsubst %,"$(bin)/dwv-%",addr $(scripts)) $(patsubst %,"$(completions)/dwv-%",addr $(scripts))
	rm -f $(patsubst %,"$(man)/dwv-%.1",addr $(scripts))
	rm -rf "$(share)"
	rm -f "$(lib)/libdwv.a" "$(lib)/libdwv.so.0" "$(lib)/libdwv.so" "$(include)/dwv.h" "$(lib)/pkgconfig/dwv.pc"

# Packages of what `make` and `make lib` built, in out/packages: a tarball, three .debs, and a wheel for Python.
.PHONY: dist
dist: lib addr
	packaging/package.py tarball out/packages

.PHONY: deb
deb: lib addr
	packaging/package.py deb out/packages

.PHONY: wheel
wheel: lib
	packaging/package.py wheel out/packages

# Measures the program beside the peers that are installed, and draws docs/performance.svg; and dwv-addr, if `make addr`
# built it.
.PHONY: bench
bench:
	bench/bench.py
	bench/lookups.py

# Runs the program on what the installed compilers make of small programs, and writes docs/COMPILERS.md.
.PHONY: compilers
compilers:
	bench/compilers.py

# Measures the C library beside the program.
.PHONY: bench-library
bench-library:
	bench/library.py

# Measures how long make takes from nothing, alone on all processors and on two, and writes bench/out/times.md.
.PHONY: times
times:
	bench/times.py

# Runs the peers that are installed on the smallest file of each rule, and writes docs/COMPARISON.md.
.PHONY: compare
compare:
	bench/compare.py

# Breaks the lines of proofs that are longer than 120 columns. Once more after `rt fmt`, which may make some longer.
.PHONY: format-proofs
format-proofs:
	for turn in 1 2; do tests/format-proofs.py; for it in crates/*/; do (cd $$it && rt fmt); done; done

# Says where a rule, a function or a definition is: its file, clauses, proofs, edits and rows: `make where NAME=R3`.
.PHONY: where
where:
	@docs/where.py "$(NAME)"

# Writes what pages and code say of each rule and each code, from docs/rules.tsv and docs/codes.tsv, draws
# docs/verdict.svg, and writes tables of definitions and proofs, from specs/, the code, the proofs and the edits, into
# out/docs.
.PHONY: docs
docs:
	docs/make-rules.py
	docs/make-indexes.py
	docs/make-picture.py

# Lays out every source file.
.PHONY: fmt
fmt:
	for crate in $(crates); do (cd crates/$$crate && rt fmt) || exit 1; done

# Removes what checks and builds kept.
.PHONY: clean
clean:
	rm -rf crates/*/out bench/out tests/out out
