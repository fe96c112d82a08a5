# pvsim: a teaching kernel with OpenBSD's pledge and unveil.
#
#   make                 the proved program at bin/pvsim: proves it and the crates below it, and nothing else
#   make demo            the first example, before any proof, by a small program over the crates of a run alone
#   make try FILE=examples/held.bundle       explains the run of a bundle, before any proof; immediate after make
#   make try SOURCE=examples/sources/held    explains the run of a source: a bundle with comments and labels, and without line counts
#   make try RUN=needs FILE=..               another answer: state, reach, needs, turns, ls, audit; RUN=run the trace alone
#   make test            proves every crate but those of tests alone, once, and runs every test, case and example by the proved program (docs/GATE.md)
#   make mutants         tries every mutant, each of which the prover must refuse; make mutants CRATE=pv_tree those of one crate;
#                        ALL=1 tries those too that were refused before, and on which nothing changed; MINUTES=N begins none after N minutes, and
#                        PROCESSOR_MINUTES=N none after N minutes of processors
#   make page FILE=examples/race-first.bundle    a page for a browser of every schedule: OUT=page.html, STATES=N
#   make altered         alters each definition of tools/alterations/, and says which law or worked run is refused first (docs/ALTERED.md);
#                        make altered NAMES="a b" tries some, MINUTES=N begins none after N minutes
#   make examples        every bundle of examples/, cases/runs/ and cases/openbsd/, before any proof
#   make pages           writes the generated parts of the pages, and the figures, anew
#   make cases           the proved program on the tables of cases/: command lines, and mistakes in sources
#   make sources         the proved program on sources: cases, examples, and random ones
#   make images          the proved program on images: of directories of this host, and with one corrupted byte
#   make fault-injection the proved program with each allocation, opening, read and write failing
#   make host-kernel     bundles on this host's kernel beside the proved program; ALL=1 all of them (docs/HOST-KERNEL.md)
#   make check           proves every crate over the work of earlier checks
#   make bench           proves and runs the benchmark, and prints times
#   make speed           times the proved program on the workloads of docs/SPEED.md; make speed OTHER=program beside another
#   make dist            an archive that runs without the toolchain, in dist/: PVSIM=program takes another program than bin/pvsim
#   make man             checks the manual pages by mandoc(1)
#   make install PREFIX=/usr/local       the program, pvsim-tighten, pvsim-to-json, the manual pages, and the sources of the examples

PREFIX ?= /usr/local
MANDIR ?= $(PREFIX)/share/man
EXAMPLESDIR ?= $(PREFIX)/share/examples/pvsim

.PHONY: all demo try test mutants altered examples cases sources images fault-injection host-kernel check bench speed man pages dist install clean

all: bin/pvsim

SOURCES := crates.txt $(shell find crates -path '*/out' -prune -o \( -name '*.rt' -o -name '*.antt' \) -print)

bin/pvsim: $(SOURCES)
	@tools/prove --program $@ pv_cli

demo:
	@echo 'make demo: building pv_demo without proof takes about a minute of a processor. It then runs examples/motd.bundle:'
	@cat examples/motd.bundle
	@cd crates/pv_demo && rt try < ../../examples/motd.bundle

# The proved program answers if bin/pvsim is newer than the code; else an unproved one is built, which says so.
RUN ?= explain
UNPROVED = make try: building pvsim without proof takes about $(if $(SOURCE),five,two and a half) minutes of a processor. After `make`, each answer is immediate.
try:
	@test -n "$(FILE)$(SOURCE)" || { echo 'usage: make try FILE=bundle, or make try SOURCE=source'; exit 2; }
	@test -r "$(FILE)$(SOURCE)" || { echo 'no file $(FILE)$(SOURCE)'; exit 2; }
	@bundle=$$(mktemp); trap 'rm -f $$bundle' EXIT; \
	if $(MAKE) -sq bin/pvsim; then pvsim=bin/pvsim; else pvsim=tools/unproved; echo '$(UNPROVED)' >&2; fi; \
	case '$(RUN)' in run) words='run-tree -v -' ;; *) words='$(RUN) -v -b -' ;; esac; \
	if [ -n "$(SOURCE)" ]; then $$pvsim source - < "$(SOURCE)"; else cat "$(FILE)"; fi > $$bundle || exit; \
	$$pvsim $$words < $$bundle

# Without a proved program an unproved one answers. It takes minutes, so the page has fewer states.
OUT ?= page.html
.PHONY: page
page:
	@test -r "$(FILE)" || { echo 'usage: make page FILE=bundle or source [OUT=page.html] [STATES=N]'; exit 2; }
	@if $(MAKE) -sq bin/pvsim; then pvsim=bin/pvsim states=20000; else pvsim=tools/unproved states=200; fi; \
	TRY_SECONDS=600 tools/page --pvsim $$pvsim --states $(or $(STATES),$$states) "$(FILE)" > "$(OUT)" || { status=$$?; rm -f "$(OUT)"; exit $$status; }; \
	echo 'Open $(OUT) in a browser.'
test:
	@tools/test

mutants:
	@tools/mutants $(if $(ALL),--all) $(if $(MINUTES),--minutes $(MINUTES)) $(if $(PROCESSOR_MINUTES),--processor-minutes $(PROCESSOR_MINUTES)) $(CRATE)

altered:
	@tools/altered-definitions $(if $(MINUTES),--minutes $(MINUTES)) $(NAMES)

examples:
	@tools/examples

cases: bin/pvsim
	@tools/cases bin/pvsim

sources: bin/pvsim
	@tools/sources bin/pvsim

images: bin/pvsim
	@tools/host-copy bin/pvsim
	@tools/corrupted-images bin/pvsim

fault-injection: bin/pvsim
	@tools/fault-injection bin/pvsim

host-kernel: bin/pvsim
	@tools/host-kernel bin/pvsim $(if $(ALL),--all)

check:
	rt all check

bench:
	cd crates/pv_bench && rt run > /dev/null
	crates/pv_bench/out/pv_bench full

speed: bin/pvsim
	tools/speed bin/pvsim $(OTHER)

man:
	@command -v mandoc > /dev/null || { echo 'make man needs mandoc(1)'; exit 1; }
	@cd man && ! mandoc -T lint -W style *.[157] | grep -v 'referenced manual not found'

PVSIM ?= bin/pvsim
dist: $(if $(filter bin/pvsim,$(PVSIM)),bin/pvsim)
	@tools/dist --pvsim $(PVSIM)

install: bin/pvsim
	install -d $(DESTDIR)$(PREFIX)/bin
	install -m 755 bin/pvsim $(DESTDIR)$(PREFIX)/bin/pvsim
	install -d $(DESTDIR)$(MANDIR)/man1 $(DESTDIR)$(MANDIR)/man5 $(DESTDIR)$(MANDIR)/man7
	install -m 755 tools/to-json $(DESTDIR)$(PREFIX)/bin/pvsim-to-json
	install -m 755 tools/tighten $(DESTDIR)$(PREFIX)/bin/pvsim-tighten
	install -d $(DESTDIR)$(PREFIX)/share/pvsim/lib/sandbox
	install -m 644 tools/lib/sandbox/*.py $(DESTDIR)$(PREFIX)/share/pvsim/lib/sandbox
	install -m 644 man/pvsim.1 man/pvsim-tighten.1 man/pvsim-to-json.1 $(DESTDIR)$(MANDIR)/man1
	install -m 644 man/pvsim.5 man/pvsim-trace.5 $(DESTDIR)$(MANDIR)/man5
	install -m 644 man/pvsim.7 $(DESTDIR)$(MANDIR)/man7
	install -d $(DESTDIR)$(EXAMPLESDIR)
	install -m 644 examples/sources/* $(DESTDIR)$(EXAMPLESDIR)
	install -d $(DESTDIR)$(PREFIX)/share/bash-completion/completions $(DESTDIR)$(PREFIX)/share/zsh/site-functions
	tools/completion bash > $(DESTDIR)$(PREFIX)/share/bash-completion/completions/pvsim
	tools/completion zsh > $(DESTDIR)$(PREFIX)/share/zsh/site-functions/_pvsim

pages:
	tools/generate-pages
	tools/figures

clean:
	rm -rf bin dist
