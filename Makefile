.PHONY: test run example install bench runs

PREFIX ?= /usr/local
LIBRARY = target/staticlib/libentry.a
PROGRAM = target/bin/parkline
LAMPLINE = target/bin/lampline

# What Rattle compiles is for x86-64. On any other machine an emulator runs it, and C is compiled by a compiler for x86-64.
ifneq ($(shell uname -m),x86_64)
ifeq ($(origin CC),default)
CC = x86_64-linux-gnu-gcc
endif
endif

# the gate: C tests, comparisons, proofs, must-fail edits, programs
test:
	.ci/run

# says what is missing where an x86-64 program cannot be compiled and run
runs:
	@.ci/x86-64.sh look

# the session of the scope paper: its five event lines, and the answers
run: runs
	@.ci/build parkline
	$(PROGRAM) < crates/parkline/stdin

# the example host in C, on its script of events
example: runs target/host
	target/host < examples/c/script.txt

target/host: examples/c/host.c include/park.h $(LIBRARY)
	@mkdir -p target
	$(CC) -std=c99 -Wall -Wextra -Werror -O2 -Iinclude examples/c/host.c $(LIBRARY) -o $@

# library, header, program and man pages, below DESTDIR and PREFIX; no gate is run, and only what is missing is built
INSTALLED = "$(DESTDIR)$(PREFIX)"
install: $(LIBRARY) $(PROGRAM)
	install -d $(INSTALLED)/lib $(INSTALLED)/include $(INSTALLED)/bin
	install -d $(INSTALLED)/share/man/man1 $(INSTALLED)/share/man/man3
	install -m 644 $(LIBRARY) $(INSTALLED)/lib/libpark.a
	install -m 644 include/park.h $(INSTALLED)/include/park.h
	install -m 755 $(PROGRAM) $(INSTALLED)/bin/parkline
	install -m 644 man/parkline.1 $(INSTALLED)/share/man/man1/parkline.1
	install -m 644 man/park_step.3 $(INSTALLED)/share/man/man3/park_step.3
	install -m 644 man/park_bad_field.3 $(INSTALLED)/share/man/man3/park_bad_field.3

# The library and the programs beside the peer's, as one table in Markdown; cargo bench builds in release mode. Under an emulator a time says
# nothing, and valgrind, which counts the instructions, cannot run: there PARK_COUNTER names a program that counts them.
bench: $(LIBRARY) $(PROGRAM) $(LAMPLINE)
	@[ "$$(uname -m)" = x86_64 ] || [ -n "$$PARK_COUNTER" ] || { echo "make bench needs an x86-64 machine, or a counter of instructions (PARK_COUNTER)" >&2; exit 1; }
	@bash -c '. .ci/x86-64.sh >&2 && cd tests/peer && cargo bench --offline --bench park'

$(LIBRARY):
	.ci/build entry_c

$(PROGRAM):
	.ci/build parkline

$(LAMPLINE):
	.ci/build lampline
