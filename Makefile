# What you can do here; `make` lists it.
SHELL := bash
PREFIX ?= out/installed
LIBDIR ?= lib
# How many tests and proofs run at a time: one for each processor that `make` may run on.
JOBS ?= $(shell nproc)
PROGRAMS := partmem framemap partcheck
# The tests, by what they need. A script prints which tools are missing, and skips what needs them. tests/packages lists all tools.
#   nothing that was built; refused-growths and pasted-first build without proofs:
FROM_SOURCES := structure documents diagrams pages witnesses edits helps threads refused-growths pasted-first
#   the programs that `rt ci` built:
OVER_PROGRAMS := hostile-bytes refused-memory instructions conformance findings plain-machine pictures picture-page machines \
    command-lines partcheck examples
#   the library for C, and some of them the programs too:
OVER_LIBRARY := same-path kernel-archives objtool in-place heap watched parallel cpp use-from-c pasted demo-kernel linux rust \
    other-targets wide-machines side-by-side costs stack install browser-page
CHECKS := $(addprefix check-,$(FROM_SOURCES) $(OVER_PROGRAMS) $(OVER_LIBRARY))
.PHONY: list list-tests try unproved quick prove test check tools proved library browser install uninstall release bench \
    soak $(CHECKS)

list: ; @sed -n "s/^\([a-z-]*\):[^#]*## /make \1\t/p" Makefile | expand -t 18
try: ## runs partmem on an example, without proofs (2 minutes)
	cd crates/partmem && rt try -- --order 3 --superblocks 2 --tenants 2 < ../../examples/tenants.trace
unproved: ## builds the programs and the library for C without proofs (2 minutes)
	tools/unproved $(PROGRAMS) library
quick: ## runs the tests that need no proof, over builds without proofs (10 minutes)
	$(AS_A_USER) tests/quick
list-tests: ## lists the tests, each with the first line of its comment
	@awk 'FNR == 2 { sub(/^(# |""")/, ""); print FILENAME "\t" $$0 }' tests/*/run tests/{proofs,quick,more-edits} | expand -t 28
prove: ## proves all crates and builds the programs, without tests
	@rt all check --jobs $(JOBS) >&2
	@for name in $(PROGRAMS); do \
	    (cd crates/$$name && rt run -- --version) >&2 && crates/$$name/out/$$name --version || exit 1; \
	done
test: ## proves everything, tries the wrong bodies, and runs all tests
	tests/proofs $(ANEW)
	$(MAKE) -j$(JOBS) --output-sync=target check
check: tools $(CHECKS) ## runs all tests over what `rt ci` has proved
library: proved ## builds the library for C from what `rt ci` has proved
	tools/library
browser: library ## makes the page on which you try to disturb a tenant
	browser/make
install: ## installs what is proved under PREFIX (out/installed), archives in LIBDIR (lib), all below DESTDIR if it is set
	DESTDIR='$(DESTDIR)' ./install --libdir '$(LIBDIR)' '$(PREFIX)'
uninstall: ## removes what `make install` puts there with the same variables
	DESTDIR='$(DESTDIR)' ./install --uninstall --libdir '$(LIBDIR)' '$(PREFIX)'
release: ## makes a release of what the gate has passed
	./release
bench: ## measures the proved program
	bench/run
soak: ## runs random pairs of traces for ten minutes, and compares the replies to one tenant
	tests/soak/run

tools: ; @tests/missing-tools
proved: ; @tests/proofs --still
$(addprefix check-,$(OVER_PROGRAMS)): proved
$(addprefix check-,$(OVER_LIBRARY)): library
check-browser-page: browser
# Scripts run without the variables of this `make`. A `make` that they run would otherwise print the folders that it enters.
AS_A_USER := env -u MAKEFLAGS -u MFLAGS -u MAKELEVEL
# check-NAME runs tests/NAME/run, and check-pasted-first runs tests/pasted/run with --first.
$(CHECKS): check-%: ; $(AS_A_USER) tests/$(*:-first=)/run $(if $(filter %-first,$*),--first)
