## make sample     lists the run of samples/neighbour (another: make sample SAMPLE=order); at first
##                 it proves and builds the listing program, which takes some minutes
## make list_run   that program, target/programs/list_run
## make library    the library that C programs link, target/staticlib/liblellmusu.a
## make install    both, with header, pkg-config file and pages, below PREFIX=/usr/local; honours
##                 DESTDIR, LIBDIR, CPPFLAGS, CFLAGS and LDFLAGS
## make recorder   target/recorder/recorder, an example of a C program that calls the library
## make test       every proof and every test; what `rt ci` has passed on this machine before, and
##                 what cargo and cc have built, is done again only where something changed
## make bench      times the whole check
##
## Parts of the test: second harness definitions edits first header-test recorder-test
## list_run-test install-test

SHELL := bash

VECTORS := tests/vectors
PROGRAMS := target/second/release
HARNESS := $(PROGRAMS)/harness
FIRST := target/first/release/harness
FORMS := target/forms.txt
DEFINITIONS_LOG := target/definitions.log
LIBRARY := target/staticlib/liblellmusu.a
HEADER := include/lellmusu.h
RECORDER := target/recorder
LIST_RUN := target/programs/list_run
VERSIONS := target/programs/versions

# What is proved: a change in it has `rt` prove again what stands on it.
PROVED := crates.txt $(shell find crates/*/src crates/*/specs crates/*/proofs -type f)

# Where `install` puts its files, and the version, which is the header's.
PREFIX ?= /usr/local
LIBDIR ?= $(PREFIX)/lib
VERSION := $(shell sed -n 's/^.define LELLMUSU_VERSION "\(.*\)"$$/\1/p' $(HEADER))

# The sample run that is listed.
SAMPLE ?= neighbour

# How C is compiled here. What CPPFLAGS, CFLAGS and LDFLAGS say comes after.
C_FLAGS := -std=c11 -Wall -Wextra -Werror
CXX_FLAGS := -std=c++11 -Wall -Wextra -Werror
ADDRESS := -g -O1 -fsanitize=address,undefined -fno-sanitize-recover=all
THREAD := -g -O1 -fsanitize=thread

# Generated inputs of `first`; more of them: make first SEED=7 COUNT=1000000
SEED ?= 1
COUNT ?= 20000

# What `test` runs after rt's own gate, in two lanes beside each other: what asks the prover, and what does not.
PROVER_PARTS := definitions edits
OTHER_PARTS := second harness first header-test recorder-test list_run-test install-test

.PHONY: help test sample bench second harness definitions edits first programs library install recorder recorder-test recorder-thread header
.PHONY: list_run list_run-test install-test header-test

# What can be made, as the top of this file says.
help:
	@sed -n 's/^## \{0,1\}//p' Makefile

# rt's own gate, which comes before all else, then the tests, which stand on what was proved. It fails too where a must-fail edit no longer fits the text
# (the line `rt: ok` counts those as bad). Each part's seconds are printed, and the gate's last line is the last line.
test:
	@set -e -o pipefail; room=$$(mktemp -d); trap 'rm -rf $$room' EXIT; \
	lane() { \
		for part in "$$@"; do \
			begun=$$SECONDS; $(MAKE) --no-print-directory $$part; echo "$$part $$((SECONDS - begun))" >>$$room/seconds; \
		done; \
	}; \
	rt ci | tee $$room/gate; echo "rt ci $$SECONDS" >$$room/seconds; \
	grep -q '^rt: ok' $$room/gate || { echo "no line 'rt: ok' from rt ci"; exit 1; }; \
	! grep -qE '^rt: ok.*, [1-9][0-9]* bad' $$room/gate || { echo 'must-fail edits that are bad, as told above'; exit 1; }; \
	lane $(PROVER_PARTS) >$$room/proofs 2>&1 & \
	lane $(OTHER_PARTS); \
	wait $$! || { cat $$room/proofs; exit 1; }; cat $$room/proofs; \
	echo "seconds: $$(paste -sd, $$room/seconds | sed "s/,/, /g")"; tail -n 1 $$room/gate

# The second program's harness and the writer of theorems; cargo builds what has changed.
programs:
	cd tests/second && cargo build --release --quiet
	cd tests/definitions && cargo build --release --quiet

# The second program's own tests.
second:
	cd tests/second && cargo test --release --quiet -- --show-output

# The second program over the corpus.
harness: programs
	$(HARNESS) corpus $(VECTORS)

# The corpus's shorter cases, computed by the definitions, and the header's numbers and lengths beside theirs. The crates of theorems are written outside
# the checkout, in which `rt ci` takes none but those of crates.txt.
definitions: programs
	@set -e; room=$$(mktemp -d); trap 'rm -rf $$room' EXIT; \
	$(PROGRAMS)/definitions . $$room $(VECTORS)/*.txt; \
	tests/header/theorems $(HEADER) $$room; \
	(cd $$room && rt all check) >$(DEFINITIONS_LOG) 2>&1 || { cat $(DEFINITIONS_LOG); exit 1; }; \
	tail -n 1 $(DEFINITIONS_LOG)

# Edits of the definitions that the theorems must refuse.
edits:
	tests/edits/run

# The whole check as a static library, proved again only where a crate has changed. Of each crate that is checked one line is shown; the whole log is kept
# beside the library, and shown if something is not proved.
$(LIBRARY): $(PROVED)
	@mkdir -p $(@D)
	@set -o pipefail; (cd crates/lellmusu && rt lib) 2>&1 | tee $(@D)/lellmusu.log | { grep --line-buffered '^crate ' || true; } || \
		{ cat $(@D)/lellmusu.log; exit 1; }
	@cp crates/lellmusu/out/liblellmusu.a $@

# The harness with the library's check in place of the second program's: the corpus, generated inputs, small records judged by searching all plain
# runs, its answers on records of one trace beside each other, and the verdict on every pair of map and kind, against the table that the second program
# writes.
first: $(LIBRARY) programs
	cd tests/second && cargo build --release --quiet --features first --target-dir ../../target/first
	$(HARNESS) write-forms $(FORMS)
	$(FIRST) forms $(FORMS)
	$(FIRST) corpus $(VECTORS)
	$(FIRST) generated $(SEED) $(COUNT)
	$(FIRST) judged $(SEED)
	$(FIRST) one-trace $(SEED)

# The compiled check's times beside the second program's.
bench: $(LIBRARY)
	cd tests/bench && cargo build --release --quiet
	$(PROGRAMS)/bench

# The listing of a sample run, whichever answer it has.
sample: list_run
	@cd 'samples/$(SAMPLE)' && { ../../$(LIST_RUN) || [ $$? -lt 3 ]; }

# The listing program, proved again only where a crate has changed. `rt run` starts what it built, so here it is asked for its version alone.
list_run: $(LIST_RUN)
$(LIST_RUN): $(PROVED)
	@mkdir -p $(@D)
	@set -o pipefail; (cd crates/list_run_main && rt run -- --version) 2>&1 | tee $(@D)/list_run.log | { grep --line-buffered '^crate ' || true; } || \
		{ cat $(@D)/list_run.log; exit 1; }
	@cp crates/list_run_main/out/list_run_main $@

# The listing program on the corpus and the samples, on files that are missing, not to be read or too long, and with arguments.
list_run-test: $(LIST_RUN)
	tests/list_run/run $(LIST_RUN)

# The library that C programs link.
library: $(LIBRARY)

# Library, header and pkg-config file, the listing program, its page and what its files hold, below PREFIX, which DESTDIR goes before while they are
# put there.
install: library list_run
	set -e; prefix=$$(realpath -ms -- '$(PREFIX)'); libdir=$$(realpath -ms -- '$(LIBDIR)'); \
	under='$(DESTDIR)'$$prefix; lib='$(DESTDIR)'$$libdir; doc=$$under/share/doc/lellmusu; \
	install -d "$$lib/pkgconfig" "$$under/include" "$$under/bin" "$$under/share/man/man1" "$$doc"; \
	install -m 644 $(LIBRARY) "$$lib"; \
	install -m 644 $(HEADER) "$$under/include"; \
	install $(LIST_RUN) "$$under/bin"; \
	install -m 644 docs/list_run.1 "$$under/share/man/man1"; \
	install -m 644 docs/FORMATS.md docs/RECORDER.md CHANGELOG.md "$$doc"; \
	sed -e "s|@PREFIX@|$$prefix|" -e "s|@LIBDIR@|$$libdir|" -e 's|@VERSION@|$(VERSION)|' lellmusu.pc.in >"$$lib/pkgconfig/lellmusu.pc"

# What is installed, in folders with a space too, and that header, library, listing program and pages have one version.
$(VERSIONS): tests/install/versions.c $(HEADER) $(LIBRARY)
	@mkdir -p $(@D)
	$(CC) $(C_FLAGS) $(CPPFLAGS) $(CFLAGS) $(LDFLAGS) -Iinclude -o $@ $< $(LIBRARY)

install-test: $(VERSIONS) $(LIST_RUN)
	tests/install/run $(VERSIONS) $(LIST_RUN)

# The example recorder, as it is used, and with sanitizers for its test.
recorder: $(RECORDER)/recorder
$(RECORDER)/recorder: SANITIZERS := -O2
$(RECORDER)/address: SANITIZERS := $(ADDRESS)
$(RECORDER)/thread: SANITIZERS := $(THREAD)
$(RECORDER)/recorder $(RECORDER)/address $(RECORDER)/thread: $(wildcard examples/recorder/*.[ch]) $(HEADER) $(LIBRARY)
	@mkdir -p $(RECORDER)
	$(CC) $(C_FLAGS) $(SANITIZERS) $(CPPFLAGS) $(CFLAGS) $(LDFLAGS) -Iinclude -pthread -o $@ $(filter %.c,$^) $(LIBRARY)

# What the header says of lent memory, on the sample run.
$(RECORDER)/lent: tests/recorder/lent.c $(HEADER) $(LIBRARY)
	@mkdir -p $(RECORDER)
	$(CC) $(C_FLAGS) $(ADDRESS) -Iinclude -o $@ $< $(LIBRARY)

# The header by itself, in C and in C++.
header:
	$(CC) $(C_FLAGS) -pedantic -fsyntax-only -x c $(HEADER)
	$(CXX) $(CXX_FLAGS) -pedantic -fsyntax-only -x c++ $(HEADER)

# The header's numbers, lengths and functions, held to documents 01 and 02.
header-test: header target/header/numbers
	tests/header/run target/header/numbers $(HEADER)
target/header/numbers: tests/header/numbers.c $(HEADER) $(LIBRARY)
	@mkdir -p $(dir $@)
	$(CC) $(C_FLAGS) $(ADDRESS) -Iinclude -o $@ $< $(LIBRARY)

# The recorder's runs against the second program, with the sanitizer of addresses and, where there is one, that of threads.
recorder-test: header programs $(RECORDER)/lent $(RECORDER)/address
	$(RECORDER)/lent samples/neighbour
	tests/recorder/run $(RECORDER)/address
	@if echo 'int main(void) { return 0; }' | $(CC) $(THREAD) -x c -o $(RECORDER)/probe - 2>$(RECORDER)/probe.log && $(RECORDER)/probe; then \
		$(MAKE) --no-print-directory recorder-thread; else echo 'no sanitizer of threads here'; fi

recorder-thread: $(RECORDER)/thread
	tests/recorder/run $(RECORDER)/thread
