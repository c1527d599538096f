# The checker of Capsicum traces: build, run, test.
#
#   make            proves every crate and leaves the program as ./capcheck
#   make run        shows the report of an example trace, or of TRACE, without a proof: in a minute or two
#   make test       the gate: every proof, test and stored run, and the wrong bodies under must-fail/, from nothing, and with
#                   the program that this builds the examples, worked traces and scripts, random ones beside a second reading
#                   of the rules, each allocation refused in turn, hostile input, the recorder and the annotator, programs
#                   under a small kernel with their limits put in; the object linked on Linux and for FreeBSD, and in archives;
#                   that all wrong bodies fit the code, and that scripts can be read
#   make examples   the tests of the built program alone (tests/run.py), with ./capcheck
#   make wrong      the wrong bodies that the gate leaves out (tests/wrong): the prover must refuse each, and it takes hours
#   make refusals   each call that takes memory, with each of its allocations refused
#   make bench      times the program, and reading alone, on traces of a million lines beside `wc -l`, and sessions, denials,
#                   limits and the page of annotate beside a check; where valgrind is installed, counts instructions too
#   make dist       makes the archives of a release in dist/, of a proved build for every x86-64, and tries them (CONTRIBUTING.md)
#   make install    puts the program, its tools, manual pages and completions under PREFIX (default /usr/local)
#   make uninstall  takes them away

# This is read by GNU make alone, which skips the lines up to `endif`. To other makes the first line is a target.
ifdef :
.error This Makefile is for GNU make: run gmake, or make where that is GNU make.
endif

# No file is made by a rule that isn't here, as a program from the object beside it.
MAKEFLAGS += --no-builtin-rules

RT ?= rt
TRACE = examples/filter.trace
PREFIX ?= /usr/local
SOURCES = $(shell find crates -path '*/out' -prune -o -type f -name '*.rt' -print -o -type f -name '*.antt' -print) crates.txt HANDLES

.PHONY: all run test wrong examples refusals bench dist install clean
all: capcheck

# Ends with a sentence where one of these programs isn't there.
needs = @for it in $(1); do command -v $$it >/dev/null || { echo "make $@ needs $$it, which isn't on the path (README.md)." >&2; exit 1; }; done

# `rt run` proves the program and the crates below it, builds it and runs it, here to tell its version.
capcheck: $(SOURCES)
	$(call needs,python3 $(RT))
	cd crates/capcheck && $(RT) run -- --version >/dev/null
	cp crates/capcheck/out/capcheck $@

# `rt try` runs the program with a check at each place where a proof is owed. Findings end the program with status 1, and so does
# `rt try` where it refuses the code: then no report is there.
run:
	$(call needs,python3 $(RT))
	@echo 'capcheck check $(TRACE): checked as it runs, in a minute or two; `make` proves it'
	@report=$$({ cd crates/capcheck && $(RT) try -- check; } <'$(TRACE)'); status=$$?; echo "$$report" | grep . && test $$status -le 1

examples: capcheck
	$(call needs,python3 bash)
	tests/run.py ./capcheck

# Each allocation refused in turn, in a process that calls each function that takes memory.
refusals:
	$(call needs,python3 $(RT))
	cd crates/cap_refusal_tests && $(RT) test
	tests/refusals.py crates/cap_refusal_tests/out/cap_refusal_tests_tests

test:
	$(call needs,python3 bash $(RT))
	tests/gate.py tests/run.py tests/refusals.py

wrong:
	$(call needs,git python3 $(RT))
	tests/wrong_bodies.py

bench: capcheck
	$(call needs,python3 rt /usr/bin/time)
	bench/check_times.py ./capcheck
	bench/edit_times.py ./capcheck
	bench/session_times.py ./capcheck
	bench/command_times.py ./capcheck
	bench/page_times.py ./capcheck
	bench/parse_times.py
	if command -v valgrind >/dev/null; then for script in bench/*_instructions.py; do $$script ./capcheck || exit 1; done; fi

# KIT_NOTICE names a file with the terms of the kit, whose libraries are linked into the program.
dist:
	$(call needs,cc git python3 $(RT))
	packaging/dist.py dist

# What is installed where; DESTDIR goes before each. PROGRAM is the program to install.
PROGRAM = capcheck
BIN = $(DESTDIR)$(PREFIX)/bin
MAN = $(DESTDIR)$(PREFIX)/share/man/man1
BASH_COMPLETIONS = $(DESTDIR)$(PREFIX)/share/bash-completion/completions
ZSH_COMPLETIONS = $(DESTDIR)$(PREFIX)/share/zsh/site-functions
TOOLS = capcheck-truss capcheck-annotate capcheck-whatif

install: $(PROGRAM)
	install -d "$(BIN)" "$(MAN)" "$(BASH_COMPLETIONS)" "$(ZSH_COMPLETIONS)"
	install -m 755 $(PROGRAM) "$(BIN)/capcheck"
	install -m 755 contrib/truss2trace.py "$(BIN)/capcheck-truss"
	install -m 755 contrib/annotate.py "$(BIN)/capcheck-annotate"
	install -m 755 contrib/whatif.py "$(BIN)/capcheck-whatif"
	install -m 644 docs/*.1 "$(MAN)"
	install -m 644 contrib/completions/_capcheck "$(ZSH_COMPLETIONS)"
	install -m 644 contrib/completions/capcheck.bash "$(BASH_COMPLETIONS)/capcheck"
	for tool in $(TOOLS); do ln -sf capcheck "$(BASH_COMPLETIONS)/$$tool" || exit 1; done

.PHONY: uninstall
uninstall:
	for name in capcheck $(TOOLS); do rm -f "$(BIN)/$$name" "$(MAN)/$$name.1" "$(BASH_COMPLETIONS)/$$name" || exit 1; done
	rm -f "$(ZSH_COMPLETIONS)/_capcheck"

clean:
	rm -rf capcheck dist crates/*/out
