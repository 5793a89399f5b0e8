.PHONY: run test bench soak tables

# The worked example: the listing, and what it says of slot 3.
run: target/bin/racktrace target/tools/racklap
	@cd examples/three-cards && ../../target/bin/racktrace <trace
	@echo
	@cd examples/three-cards && ../../target/bin/racktrace <trace | ../../target/tools/racklap why 3 rack.tab

CRATES := crates.txt $(shell find crates -name out -prune -o -type f -print)

# The proved programs. rt proves again only what has changed, and runs what it builds: here on no input.
target/bin/racktrace target/bin/rackstate target/bin/rackreport: $(CRATES)
	@mkdir -p $(@D) target/log
	cd crates/$(@F) && rt run </dev/null >../../target/log/$(@F) 2>&1 || { cat ../../target/log/$(@F); exit 1; }
	cp crates/$(@F)/out/$(@F) $@

# The entries for C, under the name that its callers know.
target/staticlib/liblaptop.a: $(CRATES)
	@mkdir -p $(@D) target/log
	cd crates/laptop_c && rt lib >../../target/log/laptop_c 2>&1 || { cat ../../target/log/laptop_c; exit 1; }
	cp crates/laptop_c/out/liblaptop_c.a $@

# The whole gate: proofs, must-fail edits, comparisons.
test:
	.ci/run

# Ratios against C peers, and the stack of a settling.
bench: target/bin/racktrace target/staticlib/liblaptop.a
	bench/run
	bench/settle
	bench/stack

# N times the numbers of the gate, with fresh seeds.
soak: target/bin/racktrace target/bin/rackstate target/bin/rackreport target/staticlib/liblaptop.a
	compare/soak $(N)

# All rows of the published tables.
tables: target/bin/racktrace
	compare/tables full

include laptop/laptop.mk
