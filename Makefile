.PHONY: run try test install uninstall

# The shipped example that is recorded and replayed: a name of examples/, as in `make run EXAMPLE=aba`.
EXAMPLE = lost_update

# Where `make install` puts things: under PREFIX, and that under DESTDIR where a package is made.
PREFIX = /usr/local
DESTDIR =

# Proves and builds the program, assembles the example, records it on threads, replays the log, and compares the transcripts.
run:
	@tools/example run $(EXAMPLE)

# The same with a build that is not proved, which takes less than a minute.
try:
	@tools/example try $(EXAMPLE)

# The gate: proves every crate, tries the must-fail edits, runs the tests and the program. Before it, the examples that are
# also samples are compared with them.
test:
	@tools/samples
	rt ci

# Installs the program that `make run` has proved and built, its man page, and the examples with the scripts for them.
program = crates/light_cli/out/light_cli
top = $(DESTDIR)$(PREFIX)
share = $(PREFIX)/share/light

install:
	@[ -x $(program) ] || { echo 'make install: there is no program yet: `make run` proves and builds it' >&2; exit 1; }
	install -D -m 755 $(program) '$(top)/bin/light'
	install -d '$(top)/share/man/man1' '$(DESTDIR)$(share)/examples/litmus' '$(DESTDIR)$(share)/tools'
	sed 's|^\.ds share .*|.ds share $(share)|' docs/light.1 | install -m 644 /dev/stdin '$(top)/share/man/man1/light.1'
	install -m 644 examples/*.* '$(DESTDIR)$(share)/examples'
	install -m 644 examples/litmus/* '$(DESTDIR)$(share)/examples/litmus'
	install -m 755 examples/catch examples/replay-all '$(DESTDIR)$(share)/examples'
	install -m 755 tools/catch tools/inputs tools/litmus '$(DESTDIR)$(share)/tools'

uninstall:
	rm -f '$(top)/bin/light' '$(top)/share/man/man1/light.1'
	rm -rf '$(DESTDIR)$(share)'
