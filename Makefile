# make run proves and runs the worked example; make quick is the short test of a change, make test the whole gate; make programs builds both programs,
# make archives what C links; make soak compares with the independent implementation for longer; make bench measures beside plain Rust and plain C.
# What is proved or built is said on standard error; what has not changed is not proved or built again. The verdict is that of make test, whose first step
# is `rt ci`.
.PHONY: test quick run programs archives built soak bench
.NOTPARALLEL:

test:
	@bash tests/gate.sh

quick:
	@bash tests/quick.sh

run:
	@python3 tools/prove.py sequencer
	@cd examples/ref && ../../target/bin/sequencer

programs:
	@python3 tools/prove.py sequencer clashes

archives:
	@bash tests/archives.sh

# What soak and bench link and run.
built: programs archives

soak: built
	@bash tests/reference.sh soak

bench: built
	@bash bench/run.sh
