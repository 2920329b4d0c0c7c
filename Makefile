.PHONY: run test bench
.DELETE_ON_ERROR:

# Proves and builds the program, then prints the lines of a day's intake.
run: examples/intake.job
	sh .ci/packages run
	sh .ci/build
	sh tools/strips < examples/intake.job

# The list is what a person edits. The job made of it is kept beside it, and the gate holds the two together.
examples/intake.job: examples/intake.txt tools/job
	sh tools/job examples/intake.txt > $@

# The gate: proves everything, tries every must-fail edit and runs every test.
test:
	bash .ci/run

# Times against plain C and others, in one run on one machine; never part of the gate.
bench:
	sh bench/run
