# run: checks the example bundle. station: replays the example script, and shows its first lines. proof: writes proofs of the example
# lists, and checks them. test: the gate, which proves everything and runs the tests.
.PHONY: run station proof test

SOURCES := crates.txt $(shell find crates -path '*/out' -prune -o \( -name '*.rt' -o -name '*.antt' \) -print)

run: target/bin/bundle_check
	target/bin/bundle_check < crates/bundle_check/stdin

station: target/bin/station_replay
	target/bin/station_replay < crates/station_replay/stdin | sed -n 1,28p

proof: target/bin/proof_write target/bin/bundle_check
	target/bin/proof_write < crates/proof_write/stdin | target/bin/bundle_check

# A program is built only once it and the crates below it are proved.
target/bin/%: $(SOURCES)
	@echo "proving $* and the crates below it"
	@mkdir -p target/bin
	@cd crates/$* && rt run < stdin > ../../target/$*.log 2>&1 || { cat ../../target/$*.log; exit 1; }
	@cp crates/$*/out/$* $@

test:
	.ci/run
