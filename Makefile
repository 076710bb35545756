# `make` alone lists what there is to make.

PREFIX ?= /usr/local
BUILT = crates/fleet/out/fleet
LOG = crates/fleet/out/build.log
# How many processes check a crate, and how many crates are checked side by side (tools/checks.awk): one for each
# processor, if each has 3 GB.
JOBS ?= $(shell awk -v n="$$(getconf _NPROCESSORS_ONLN)" '/^MemAvailable/ { m = int($$2 / 3e6) } END { if (m > n) m = n; print m < 1 ? 1 : m }' /proc/meminfo)
CHECKED = $(call SIDE_BY_SIDE,tools/apart.sh,fleet_cli) && (cd crates/fleet && rt run -- --help)
PROVED = $(call SIDE_BY_SIDE,tools/prove.sh,fleet)
# What failed, and the last lines, which may be those of a crate beside it.
FAILED = grep '^make.*\*\*\*\|^rattle\|^error' $(LOG) | head -n 20; tail -n 20 $(LOG)
# Another program to try: make examples FLEET=PATH
FLEET = $(BUILT)
# The library for callers in C. LIBRARY= leaves it out, and so it is where there is no C compiler.
LIBRARY = $(shell command -v cc > /dev/null && command -v objcopy > /dev/null && echo crates/fleet_c/out/library)
ARCHIVE = $(LIBRARY:%=%/libfleet.a)
SIDE_BY_SIDE = awk -v script=$(1) -v jobs=$(JOBS) -v crate=$(2) -f tools/checks.awk crates.txt | $(MAKE) -j $(if $(filter 1,$(JOBS)),2,$(JOBS)) -f -
TRY = JOBS=$(JOBS) python3 tests/edits.py
SOURCES = crates.txt $(shell find crates -path '*/out' -prune -o \( -name '*.rt' -o -name '*.antt' \) -print)

WAREHOUSE = examples/warehouse.map examples/warehouse.scen

# No rules but these: make would link a program anew of which an object file stands beside it.
MAKEFLAGS += --no-builtin-rules

# Where make install puts things.
TO = $(DESTDIR)$(PREFIX)

.PHONY: help lib look test checks examples must-fail edits neutral numbers demo picture definitions transcripts install

help:
	@echo 'make look                  runs the program on examples within two minutes, with nothing proved'
	@echo 'make demo                  builds the program (the first time 11 to 28 minutes on four processors) and shows it on examples'
	@echo 'make lib                   builds libfleet for callers in C, C++, Rust and Python, and its header, in $(LIBRARY)'
	@echo 'make install PREFIX=DIR    puts the program at DIR/bin/fleet ($(PREFIX) where none is given), and libfleet in DIR/lib'
	@echo 'make test                  the gate: proofs, tests, edits that must fail and the examples'
	@echo 'make checks                proves all that fleet stands on and keeps the work, so that rt check and make prove only what changes then'
	@echo 'make examples              runs the program on every example of the documents, on transcripts and tables, and on files and streams at their limits'
	@echo 'make examples FLEET=PATH   the same of another program'
	@echo 'make must-fail             tries the edits of tests/must-fail, which the prover has to refuse: part of the gate, beside those that rt ci tries'
	@echo 'make edits                 tries more of them, those of tests/edits'
	@echo 'make neutral               tries changes that mean nothing, those of tests/neutral, which the prover has to take'
	@echo 'make numbers               compares the numbers of 10,000 plans at random with a count of another hand'
	@echo 'make picture               draws the film and the chart of the README anew, docs/warehouse.svg and docs/waits.svg'
	@echo 'make definitions           writes docs/DEFINITIONS.md anew, from the comments in crates/*/specs'
	@echo 'make transcripts           writes tests/transcripts/help.md anew, from what the program prints as help'

look:
	@sh tools/look.sh

test:
	rt ci
	@$(MAKE) --no-print-directory -j 2 -O must-fail examples

# Proves the crates below the program, each after those that it uses, and builds the program: those that changed since
# they were proved so and those above them, or where `make checks` kept its work, what has changed of each. What the
# prover says goes to a file.
$(BUILT): $(SOURCES)
	@mkdir -p $(@D)
	@echo 'Proving the crates and building fleet: the first time 11 to 28 minutes on four processors. The lines of the prover go to $(LOG).'
	@if [ -d crates/fleet_cli/out/incremental ]; then $(CHECKED); else $(PROVED); fi > $(LOG) 2>&1 || { $(FAILED); exit 1; }
	@touch $@

checks:
	@mkdir -p $(dir $(BUILT))
	@echo 'The lines of the prover go to $(LOG).'
	@($(CHECKED)) > $(LOG) 2>&1 || { $(FAILED); exit 1; }

lib: $(ARCHIVE)
	@[ -n '$(ARCHIVE)' ] || echo 'libfleet is left out: it needs cc, ld, ar and objcopy'

# Proves the crates that libfleet stands on, and builds it.
$(ARCHIVE): $(SOURCES) include/fleet.h tools/lib.sh
	@mkdir -p $(@D)
	@echo 'Proving and building libfleet in $(@D). The lines of the prover go to $(@D)/build.log.'
	@sh tools/lib.sh $(@D) > $(@D)/build.log 2>&1 || { tail -n 20 $(@D)/build.log; exit 1; }

examples: $(FLEET) $(ARCHIVE)
	@sh tests/examples.sh $(FLEET) $(LIBRARY)

must-fail: $(BUILT)
	@$(TRY) must-fail

edits: $(BUILT)
	@$(TRY) edits

neutral: $(BUILT)
	@$(TRY) neutral

numbers: $(FLEET)
	@sh tests/numbers.sh $(FLEET)

demo: $(FLEET)
	@echo '100 agents in a warehouse, where nobody stops on the way (examples/warehouse.map, .scen):'
	@$(FLEET) auto $(WAREHOUSE) | tail -n 4
	@echo
	@echo 'The same agents, some of which stop for a while now and then (examples/warehouse.holds):'
	@$(FLEET) auto $(WAREHOUSE) --holds examples/warehouse.holds | tail -n 4
	@echo
	@echo 'Three agents in a row, each on the heels of the one before it (examples/corridor.hex):'
	@$(FLEET) < examples/corridor.hex
	@echo
	@echo 'Two agents that await each other are stuck (examples/deadlock.hex), status 1:'
	@$(FLEET) < examples/deadlock.hex; test $$? -eq 1
	@echo
	@echo 'The program is $(FLEET); make install PREFIX=$$HOME/.local puts it on the path.'

picture:
	awk -f tools/run.awk -f tools/film.awk examples/warehouse.map examples/warehouse.trace examples/warehouse.holds > docs/warehouse.svg
	awk -f tools/run.awk -f tools/waits.awk examples/warehouse.trace examples/warehouse.holds > docs/waits.svg

definitions:
	sh tools/definitions.sh > docs/DEFINITIONS.md

transcripts: $(FLEET)
	sh tools/help.sh $(FLEET) > tests/transcripts/help.md

install: $(FLEET) $(ARCHIVE)
	install -D -m 755 $(FLEET) "$(TO)/bin/fleet"
ifneq ($(LIBRARY),)
	install -D -m 644 $(LIBRARY)/libfleet.a "$(TO)/lib/libfleet.a"
	install -D -m 755 $(LIBRARY)/libfleet.so "$(TO)/lib/libfleet.so"
	install -D -m 644 $(LIBRARY)/fleet.h "$(TO)/include/fleet.h"
	mkdir -p "$(TO)/lib/pkgconfig"
	sed 's|@PREFIX@|$(PREFIX)|' include/fleet.pc.in > "$(TO)/lib/pkgconfig/fleet.pc"
endif
