# make build      proves everything and builds the programs, and says how long it has still to go
#                 (JOBS=N: N crates at a time)
# make run        shows the bibliography of the paper in examples/: by the built program, or, where it isn't built, unproved
# make test       the gate: every proof from nothing, new edits that must be refused, the tests, the built program's output
# make install    puts bibtex, bibtex-check, bibtex-why and bibtex-lsp into PREFIX/bin, and its parts into PREFIX/lib and PREFIX/share (PREFIX=/usr/local; DESTDIR goes before it)
# make uninstall  removes exactly what `make install` put there
# make deb        builds the Debian package out/dulshenko_VERSION_ARCH.deb from the built programs, and needs dpkg-deb
# make dist       builds the archive out/dulshenko-VERSION-ARCH.tar.gz from them
# make check      proves what has changed since the last check
#
# These need more than the kit (tests/README.md says what), and their last line counts what they skipped:
#
# make measure    times the built program beside TeX Live's, and writes docs/SPEED.md
# make hostile    times the worst inputs that we could think of
# make compare    runs it and TeX Live's bibtex over the TeX tree's styles and databases
# make try-latex  builds papers with LaTeX's tools by this bibtex and by TeX Live's
# make try-editors   drives Vim, Neovim, Emacs and the extension of VS Code with the plugins and settings of editors/
# make try-packages  installs and removes the package and the archive in folders of their own

PREFIX ?= /usr/local
DESTDIR ?=

# The proved programs: `make build` leaves them here, and so does `rt ci`. The first one serves an editor, the second one runs a job.
PROGRAM := crates/bibtex_program/out/bibtex_program
JOB_PROGRAM := crates/job_program/out/job_program
# It checks styles.
CHECK_PROGRAM := crates/style_check/out/style_check
# The language server.
LSP_PROGRAM := crates/bibtex_lsp/out/bibtex_lsp
# It says where lines of a bibliography come from.
WHY_PROGRAM := crates/why_program/out/why_program
SOURCES := crates.txt $(shell find crates/*/src crates/*/specs crates/*/proofs 2>/dev/null)

.PHONY: build run test check built install uninstall deb dist measure hostile compare try-latex try-editors try-packages

build: $(PROGRAM) $(JOB_PROGRAM) $(CHECK_PROGRAM) $(LSP_PROGRAM) $(WHY_PROGRAM)

# Every crate is proved, lowest first, and the programs are built only then.
$(PROGRAM) $(JOB_PROGRAM) $(CHECK_PROGRAM) $(LSP_PROGRAM) $(WHY_PROGRAM) &: $(SOURCES)
	@tools/build $(JOBS)

run:
	@examples/run

test:
	@tools/kit
	tests/sources
	tools/gate
	tests/together tests/memory \
	  'tests/mutations $(CHECK_PROGRAM) $(PROGRAM) --count 300' \
	  'tests/why $(WHY_PROGRAM)' \
	  'tests/run $(PROGRAM) $(PROGRAM).by-rattle' \
	  'tests/front $(JOB_PROGRAM) $(PROGRAM)' \
	  tests/originals \
	  'tests/check $(CHECK_PROGRAM)' \
	  'tests/lsp $(LSP_PROGRAM) --random 40 1' \
	  'tests/lsp $(LSP_PROGRAM)' \
	  'tests/lsp $(LSP_PROGRAM) --broken 300 1' \
	  'tests/lsp $(LSP_PROGRAM) --hostile' \
	  tests/random

check:
	@tools/kit
	rt all check

# Whether the programs are there and up to date. It builds nothing, so that root needs no toolchain: `make build` does. (A program is written only once it and all that it stands on are proved.)
built:
	@for program in $(PROGRAM) $(JOB_PROGRAM) $(CHECK_PROGRAM) $(LSP_PROGRAM) $(WHY_PROGRAM); do \
	  test -x $$program || { echo "$$program isn't built: run 'make build' first." >&2; exit 1; }; \
	  test -z "$$(find crates.txt crates/*/src crates/*/specs crates/*/proofs -newer $$program | head -1)" || \
	  { echo "$$program is older than its sources: run 'make build' first." >&2; exit 1; }; \
	done

# What is installed is laid out first, as in an archive, so that both are installed by one script. It refuses to overwrite another bibtex, and says how to go back.
install: built
	@room=$$(mktemp -d) && trap 'rm -rf "$$room"' EXIT && \
	tools/tree "$$room" $(JOB_PROGRAM) $(PROGRAM) $(CHECK_PROGRAM) $(LSP_PROGRAM) $(WHY_PROGRAM) && DESTDIR="$(DESTDIR)" sh "$$room/install" "$(PREFIX)"

uninstall:
	@DESTDIR="$(DESTDIR)" scripts/uninstall "$(PREFIX)"

deb: built
	@tools/deb $(JOB_PROGRAM) $(PROGRAM) $(CHECK_PROGRAM) $(LSP_PROGRAM) $(WHY_PROGRAM) out

dist: built
	@tools/dist $(JOB_PROGRAM) $(PROGRAM) $(CHECK_PROGRAM) $(LSP_PROGRAM) $(WHY_PROGRAM) out

measure: build
	tests/measure $(JOB_PROGRAM) $(PROGRAM) --write

hostile: build
	tests/hostile $(PROGRAM)

compare:
	tests/compare
	tests/check $(CHECK_PROGRAM) installed
	tests/bugs $(CHECK_PROGRAM) $(PROGRAM)
	tests/mutations $(CHECK_PROGRAM) $(PROGRAM)
	tests/mutations $(CHECK_PROGRAM) $(PROGRAM) --installed --bibtex
	tests/effects $(LSP_PROGRAM)

try-latex:
	tests/latex

# PROGRAM=.. drives another build of the program.
try-editors:
	tests/editors/run $(PROGRAM)
	tests/editors/lsp $(LSP_PROGRAM)

try-packages: built
	tests/packages $(JOB_PROGRAM) $(PROGRAM) $(CHECK_PROGRAM) $(LSP_PROGRAM) $(WHY_PROGRAM)
