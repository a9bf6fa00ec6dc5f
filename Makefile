# The program is proved while it is built, so a first build takes long (README.md, "Use").
.PHONY: build example test bench install uninstall clean

# mss_improve comes first: its crates are many that don't wait for each other, and what is left of mss is one long chain.
PROGRAMS := mss_improve mss

# How many crates are proved side by side: some of them wait for others, so this is more than there are processors.
JOBS ?= $(shell expr 2 + `nproc`)

# What `make install` installs, and where: the programs and the scripts below PREFIX.
PREFIX ?= $(HOME)/.local
MSS ?= bin/mss
IMPROVE ?= bin/mss_improve
LIBRARY = $(DESTDIR)$(PREFIX)/lib/mss
BIN = $(DESTDIR)$(PREFIX)/bin
SCRIPTS := tables beds explain warn picture fix_all_but

# Proves the crates below the programs side by side, builds the programs, and leaves them in bin/. `rt run` also runs each
# once, without words, so its own end doesn't matter here.
build:
	@mkdir -p bin
	@for program in $(PROGRAMS); do \
		made=crates/$$program/out/$$program; rm -f $$made; mkdir -p crates/$$program/out; \
		(cd crates/$$program && rt all check --jobs $(JOBS) && rt run) > crates/$$program/out/build.log 2>&1 || true; \
		test -x $$made || { cat crates/$$program/out/build.log; echo "$$program was not built"; exit 1; }; \
		cp $$made bin/$$program; \
	done

example: build
	@for folder in block joint_replacement; do echo "== examples/$$folder: mss block"; (cd examples/$$folder && ../../bin/mss block) || exit 1; done
	@echo "== examples/hospital: mss evaluate"; cd examples/hospital && ../../bin/mss evaluate
	@echo "== examples/two_theatres: mss check"; cd examples/two_theatres && ../../bin/mss check
	@echo "== examples/three_wards: mss_improve cycle 2 20000"; cd examples/three_wards && ../../bin/mss_improve cycle 2 20000 | head -7

# The gate: every proof from nothing, the must-fail edits, the tests, the stored runs, and the scripts.
test:
	@.ci/run

bench: build
	@bench/run

# The scripts stand beside what they share, and are reached by links.
install:
	@test -x "$(MSS)" || { echo "$(MSS) isn't there: make build first" >&2; exit 1; }
	@install -d "$(BIN)" "$(LIBRARY)/planner"
	@install -m 755 "$(MSS)" "$(BIN)/mss"
	@if test -x "$(IMPROVE)"; then install -m 755 "$(IMPROVE)" "$(BIN)/mss_improve"; fi
	@install -m 644 scripts/planner/*.py "$(LIBRARY)/planner"
	@for script in $(SCRIPTS); do \
	    install -m 755 scripts/$$script "$(LIBRARY)/mss_$$script" && ln -sf ../lib/mss/mss_$$script "$(BIN)/mss_$$script" || exit 1; \
	done
	@echo "installed in $(BIN): put it on your path"

uninstall:
	@rm -f "$(BIN)/mss" "$(BIN)/mss_improve" $(SCRIPTS:%="$(BIN)/mss_%")
	@rm -rf "$(LIBRARY)"

clean:
	@rm -rf bin crates/*/out
