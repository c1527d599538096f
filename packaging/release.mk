# Links capcheck from its proved object, tests it, and installs it. For bmake, which is make on FreeBSD, and for GNU make:
#
#   make            links ./capcheck from capcheck.o and system.c
#   make check      compares what it prints with what is stored; the last line has the system, the compiler and the counts
#   make install    puts the program, its tools, manual pages and completions under PREFIX (default /usr/local)
#   make uninstall  takes them away

CC ?= cc
CFLAGS ?= -O2
PREFIX ?= /usr/local
BIN = $(DESTDIR)$(PREFIX)/bin
MAN = $(DESTDIR)$(PREFIX)/share/man/man1
BASH_COMPLETIONS = $(DESTDIR)$(PREFIX)/share/bash-completion/completions
ZSH_COMPLETIONS = $(DESTDIR)$(PREFIX)/share/zsh/site-functions
TOOLS = capcheck-truss capcheck-annotate capcheck-whatif

all: capcheck

capcheck: capcheck.o system.c
	$(CC) $(CFLAGS) $(LDFLAGS) -o capcheck capcheck.o system.c

check: capcheck
	sh tests/examples.sh ./capcheck "$(CC)"

install: capcheck
	install -d "$(BIN)" "$(MAN)" "$(BASH_COMPLETIONS)" "$(ZSH_COMPLETIONS)"
	install -m 755 capcheck "$(BIN)/capcheck"
	install -m 755 contrib/truss2trace.py "$(BIN)/capcheck-truss"
	install -m 755 contrib/annotate.py "$(BIN)/capcheck-annotate"
	install -m 755 contrib/whatif.py "$(BIN)/capcheck-whatif"
	install -m 644 docs/*.1 "$(MAN)"
	install -m 644 contrib/completions/_capcheck "$(ZSH_COMPLETIONS)"
	install -m 644 contrib/completions/capcheck.bash "$(BASH_COMPLETIONS)/capcheck"
	for tool in $(TOOLS); do ln -sf capcheck "$(BASH_COMPLETIONS)/$$tool" || exit 1; done

uninstall:
	for name in capcheck $(TOOLS); do rm -f "$(BIN)/$$name" "$(MAN)/$$name.1" "$(BASH_COMPLETIONS)/$$name" || exit 1; done
	rm -f "$(ZSH_COMPLETIONS)/_capcheck"

clean:
	rm -f capcheck

.PHONY: all check install uninstall clean
