# The gate and what a user runs. Everything is built below target/.
.PHONY: bench example help lib program quick test tests wrong-programs

# rt proves crates side by side by itself; two runs of it at a time would write the same files.
.NOTPARALLEL:

CARGO = cargo --offline
CC11 = cc -std=c11 -Wall -Wextra -Werror -Iinclude

# a command that fails fails its pipe
SHELL = /bin/bash
.SHELLFLAGS = -eu -o pipefail -c

# The lines that begin with ## are the list.
##                      from nothing  nothing changed
## make help                                          this list
help:
	@sed -n 's/^## \{0,1\}//p' Makefile

# What a proof reads: the files of crates, and the toolchain. Make goes by their times, rt by what is in them.
read_by = $(shell find $(1) \( -name must-fail -o -name out \) -prune -o -type f -print) crates.txt $(shell command -v rt)
LIBRARIES = $(patsubst %/src/lib.rt,%,$(wildcard crates/*/src/lib.rt))

## make example         8 min         1 s             reads a tray end to end by the program: case c of document 01, with its plan
##                                                    of 40 bytes, and with that of the old form, widened; then tells why
##                                                    another record did not come up, and which season a date is in
example: program
	target/bin/trayread < crates/trayread/stdin | tee target/example.printed
	diff crates/trayread/stdout target/example.printed
	{ head -c 24 crates/planwiden/stdin | target/bin/planwiden; tail -c +41 crates/trayread/stdin; } \
	| target/bin/trayread | tee target/example.printed
	diff crates/trayread/stdout target/example.printed
	target/bin/traywhy < crates/traywhy/stdin | tee target/example.printed
	diff crates/traywhy/stdout target/example.printed
	target/bin/trayseason $(shell cat crates/trayseason/args) < crates/trayseason/stdin | tee target/example.printed
	diff crates/trayseason/stdout target/example.printed

## make program         8 min         1 s             the proved programs, in target/bin: trayread, traywhy, planwiden and
##                                                    trayseason
PROGRAMS = $(addprefix target/bin/,trayread traywhy planwiden trayseason)
program: $(PROGRAMS)

# A program is proved and built by the run that its own crate's input gets, and taken once it has printed what its file stdout
# has. What it stands on is known when its name is.
.SECONDEXPANSION:
$(PROGRAMS): target/bin/%: $$(call read_by,$$(LIBRARIES) crates/$$*)
	mkdir -p target/bin
	cd crates/$* && rt run -- $$(cat args 2> /dev/null) < stdin > ../../target/$*.printed
	diff crates/$*/stdout target/$*.printed
	cp crates/$*/out/$* $@

## make lib             8 min         1 s             the proved library for C and Rust: target/staticlib/libtraymark.a
lib: target/staticlib/libtraymark.a

# A crate is a library or a static library: traymark_c is the static library, thin over traymark, and has the archive's old name.
target/staticlib/libtraymark.a: $(call read_by,$(LIBRARIES))
	mkdir -p target/staticlib
	cd crates/traymark_c && rt lib
	cp crates/traymark_c/out/libtraymark_c.a $@

## make tests           10 min        80 s            the calls and the programs against an independent decoder and calendar,
##                                                    from Rust and C; the wrapper's and their own tests, the benchmark's
##                                                    ports and the two examples
tests: lib program
	$(CARGO) run --quiet --release -p traymark-tests --bin calls
	$(CARGO) run --quiet --release -p traymark-tests --bin program target/bin/trayread
	$(CARGO) run --quiet --release -p traymark-tests --bin explainer target/bin/traywhy
	$(CARGO) run --quiet --release -p traymark-tests --bin widener target/bin/planwiden target/bin/trayread
	$(CARGO) run --quiet --release -p traymark-tests --bin dater target/bin/trayseason
	$(CARGO) run --quiet --release -p traymark-tests --bin strips input | cmp - crates/example_strips/stdin
	$(CARGO) run --quiet --release -p traymark-tests --bin strips output | cmp - crates/example_strips/stdout
	$(CARGO) run --quiet --release -p traymark-bench check
	$(CARGO) test --quiet --release -p traymark -p independent
	$(CC11) tests/c/calls.c target/staticlib/libtraymark.a -o target/calls_c
	target/calls_c
	$(CC11) examples/read_case_c.c target/staticlib/libtraymark.a -o target/read_case_c
	target/read_case_c | tee target/read_case_c.printed
	diff examples/read_case_c.stdout target/read_case_c.printed
	$(CARGO) run --quiet --release -p traymark --example read_case_c | tee target/read_case_c.printed
	diff examples/read_case_c.stdout target/read_case_c.printed

## make bench           5 min         40 s            times beside the same method in Rust and the independent decoder; no test
bench: lib
	$(CARGO) run --quiet --release -p traymark-bench

## make quick           1 s           1 s             what needs no proof: lines of at most 130 columns, that files of
##                                                    laws open with their laws, that what the documents name is there, and
##                                                    that each exported contract is there and asks nothing
quick:
	tools/columns
	tools/heads
	tools/index
	tools/exported

## make wrong-programs  after a gate  1 s             writes docs/WRONG-PROGRAMS.md from what the last gate's prover said
wrong-programs:
	mkdir -p target
	tools/wrong-programs > target/WRONG-PROGRAMS.md
	cp target/WRONG-PROGRAMS.md docs/WRONG-PROGRAMS.md

## make test            20 min        2 min           THE GATE: `quick`, every proof, every wrong program, which must be
##                                                    refused, and `tests`; its last line is 'N passed, 0 failed'. What rt ci
##                                                    has proved on a machine it does not prove there again
# An edit that is bad, since its text fits nothing or can't be read, shows nothing of a contract: it fails the gate too.
test: quick
	mkdir -p target
	rt ci 2>&1 | tee .verdict
	! grep '^rt: ok.*, [0-9]* bad' .verdict
	tools/wrong-programs > target/WRONG-PROGRAMS.md
	diff -u docs/WRONG-PROGRAMS.md target/WRONG-PROGRAMS.md \
	|| { echo 'docs/WRONG-PROGRAMS.md is not what the prover said: make wrong-programs writes it anew'; exit 1; }
	$(MAKE) --no-print-directory tests
	tail -n 1 .verdict
