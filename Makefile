# make replay    proves and builds the replay program, then shows a recorded guest beside the replies (RECORDING=path)
# make test      the gate: proves every crate, tries every must-fail edit, then the other tests
# make soak      compares the proved and the second program over many sessions (SESSIONS=n, SEED=n)
# make bench     times both programs and single actions from C, counts instructions and writes the tables of docs/SPEED.md
# make fmt       takes unused imports out and lays sources and proofs out as rt ci wants them

.PHONY: replay test soak bench fmt

# Payment's sector, and what the next guest sees of it before and after the password.
RECORDING := recordings/leak-read-buffer-while-locked.rec
SESSIONS := 50000
SEED := $(shell date +%s)
PROGRAMS := . tools/programs.sh

replay:
	@$(PROGRAMS) && tools/install.sh python3 $$to_run && build_replay
	@sed -n '1s/^# */$(notdir $(RECORDING)): /p' $(basename $(RECORDING)).txt 2>/dev/null || true
	@$(PROGRAMS) && tools/recordings.py explain $(RECORDING) $$replay

test:
	@tests/gate.sh

soak:
	@$(PROGRAMS) && tools/install.sh $$to_run && build_replay && build_others && echo '$(SESSIONS) sessions from seed $(SEED)' && \
	$$differential compare --seed $(SEED) --count $(SESSIONS) --keep build/differences $$replay $$second

# Both tables are made even where the first misses a target.
bench:
	@$(PROGRAMS) && [ -z "$$emulated" ] || { echo 'bench: x86-64 code is timed, which says nothing under an emulator: run it on x86-64'; exit 1; }
	@tools/install.sh python3 valgrind cc
	@$(PROGRAMS) && build_replay && build_others && build_library && build_costs && \
	{ tools/bench.py $$replay $$second $$differential; missed=$$?; tools/cost.py $$hosts/cost $$second_cost && exit $$missed; }

fmt:
	@tools/tidy.py
	@for crate in crates/*/; do (cd $$crate && rt fmt) || exit; done
