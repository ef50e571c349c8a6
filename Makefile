# The kit's command; set RT where it isn't on the path.
RT ?= rt
PYTHON ?= python3
PREFIX ?= /usr/local
PROGRAM = crates/scribmon/out/scribmon
ROWS = crates/scrib_examples/out/scrib_examples
# Crates that are not part of the program.
UNNEEDED = scrib_examples scrib_tests scrib_partition

.DEFAULT_GOAL := help
.PHONY: help run try build install test checks bench prove example examples

help: ## prints this table
	@sed -n 's/^\([a-z]*\):.*## /\1	/p' Makefile | expand -t 12

# Feeds the first example to a program that was compiled without any proof.
run: ## builds without proof and runs the first example: a minute or two
	@echo 'Built without proof. make build proves and builds the program, which takes 30 to 40 minutes on four processors.'
	cd crates/scribmon && $(RT) try -- watch < ../../examples/01_hello/receive_before_send.script

try: run ## the same as run

# The kit proves crates side by side, in copies without the edits, and keeps what passed for the gate. Each crate of the
# longest chain gets all processors. Those beside the chain fill what is left: they run at low priority, in a copy of
# their own, until the last run waits for what is still being proved.
CHAIN = scrib_elaborate scrib_shards scrib_run_service
BESIDE = scrib_parser scrib_record scrib_global scrib_hold_stage scrib_arguments
LAST = scrib_cli scrib_closing scrib_labelled scrib_hold_lines scrib_held_labels scrib_hold_labelled scrib_offences scrib_findings scrib_sweeping scrib_reported

build: ## proves and builds crates/scribmon/out/scribmon: 30 to 40 minutes on four processors
	@work=$$(mktemp -d) && trap 'rm -rf "$$work"' EXIT && \
	for copy in chain beside; do \
	  mkdir "$$work/$$copy" && \
	  tar -c --exclude=out --exclude=must-fail $(UNNEEDED:%=--exclude=%) HANDLES crates.txt crates | tar -x -C "$$work/$$copy" && \
	  for crate in $(UNNEEDED); do sed -i "/^$$crate[ :]/d" "$$work/$$copy/crates.txt"; done || exit 1; \
	done && \
	{ (sleep 10; cd "$$work/beside" && nice -n 19 $(RT) ci $(BESIDE); \
	  for crate in $(LAST); do nice -n 19 $(RT) ci $$crate; done) > /dev/null 2>&1 & } && \
	(cd "$$work/chain" && for crate in $(CHAIN); do $(RT) ci $$crate || exit 1; done && $(RT) ci) && \
	mkdir -p $(dir $(PROGRAM)) && cp "$$work/chain/$(PROGRAM)" $(PROGRAM)
	$(PROGRAM) --version

install: ## copies the built program and its man page below PREFIX
	install -d $(DESTDIR)$(PREFIX)/bin $(DESTDIR)$(PREFIX)/share/man/man1
	install -m 755 $(PROGRAM) $(DESTDIR)$(PREFIX)/bin/scribmon
	install -m 644 docs/scribmon.1 $(DESTDIR)$(PREFIX)/share/man/man1/scribmon.1

# Each proof, the edits that must be refused, the tests, and the stored runs by two compilers.
test: ## the gate: everything from nothing, over an hour
	$(PYTHON) checks/examples.py check
	$(PYTHON) checks/definitions.py check
	$(PYTHON) checks/layers.py check
	$(PYTHON) checks/refusals.py check
	$(RT) ci

examples: ## proves and builds the program of the worked examples, and runs them
	cd crates/scrib_examples && $(RT) run < /dev/null
	$(PYTHON) checks/examples.py run

example: ## runs one worked example, NAME=.., without proof where nothing is built
	$(PYTHON) checks/examples.py run $(NAME)

prove: ## proves one crate, CRATE=.., over what earlier checks kept
	cd crates/$(CRATE) && $(RT) check

checks: ## tries the built programs outside the gate: some ten minutes
	$(PYTHON) checks/documents.py
	$(PYTHON) checks/refusal_examples.py
	$(PYTHON) checks/held_pipe.py
	$(PYTHON) checks/stream_ends.py
	$(PYTHON) checks/held_logs.py
	$(PYTHON) checks/next_prefixes.py
	$(PYTHON) checks/closed_logs.py
	$(PYTHON) checks/swept_logs.py
	$(PYTHON) checks/labelled_logs.py
	$(PYTHON) checks/object_logs.py
	$(PYTHON) checks/generated_logs.py | $(PROGRAM) watch --json | $(PYTHON) checks/json_lines.py
	$(PYTHON) checks/little_memory.py
	$(PYTHON) checks/broken_input.py --rounds 1000
	$(PYTHON) checks/refused_memory.py

bench: ## measures the built programs on an idle machine: half an hour
	$(PYTHON) bench/bench.py
	$(PYTHON) bench/limits.py
	$(PYTHON) bench/run.py
	$(PYTHON) bench/service.py
	$(PYTHON) bench/machines.py
