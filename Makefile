# `make help` lists the targets.
PROGRAM := bin/balance
PREFIX ?= /usr/local
SOURCES := $(shell find crates -name out -prune -o \( -name '*.rt' -o -name '*.antt' \) -print) crates.txt

.PHONY: help run build install test bench

help:
	@echo 'make run      show examples/shift.c, its guarded text, and a run of that'
	@echo 'make build    prove and build the program: $(PROGRAM)'
	@echo 'make install  copy that to $(PREFIX)/bin/balance, with its man page and completions (PREFIX=.., DESTDIR=..)'
	@echo 'make test     run the gate, as CI does'
	@echo 'make bench    time runs beside a tree walk in C and gcc, irregular reads, demonstrations, the reading of texts, printing and checks, and weigh runs'

# The program lies outside of crates/, whose folders out/ the gate removes.
$(PROGRAM): $(SOURCES)
	cd crates/balance_cli && rt run -- print ../../examples/shift.c > /dev/null
	install -D crates/balance_cli/out/balance_cli $@

build: $(PROGRAM)

install: $(PROGRAM)
	install -D $(PROGRAM) $(DESTDIR)$(PREFIX)/bin/balance
	install -D -m 644 docs/balance.1 $(DESTDIR)$(PREFIX)/share/man/man1/balance.1
	install -D -m 644 completions/balance.bash $(DESTDIR)$(PREFIX)/share/bash-completion/completions/balance
	install -D -m 644 completions/_balance $(DESTDIR)$(PREFIX)/share/zsh/site-functions/_balance
	install -D -m 644 completions/balance.fish $(DESTDIR)$(PREFIX)/share/fish/vendor_completions.d/balance.fish

run:
	@examples/run.sh

test:
	.ci/run

bench: $(PROGRAM)
	@benches/run.sh
	@benches/irregular.sh
	@benches/demo.sh $(PROGRAM)
	@benches/parse.sh $(PROGRAM)
	@benches/print.sh $(PROGRAM)
	@benches/check.sh $(PROGRAM)
	@benches/memory.sh $(PROGRAM)
