# Each target does all of its own set-up.
export RT_JOBS ?= 2

.PHONY: help test list job example peaks bench
.NOTPARALLEL:
.DELETE_ON_ERROR:

help:
	@echo "make help            this list"
	@echo "make test            all proofs and must-fail edits that are not kept from a run before, and all other tests"
	@echo "                     (about 20 minutes on four cores the first time; then some minutes)"
	@echo "make list JOB=FILE   the frames of a job"
	@echo "                     (some minutes the first time, to prove and build the program; then at once)"
	@echo "make example         a label and its revision, quoted, taken and rebuilt from C"
	@echo "                     (some minutes the first time, to prove and build the library; then at once)"
	@echo "make peaks JOB=FILE  the chunks and cuts of a job with windows from 1 to 64, to choose one by"
	@echo "                     (some minutes the first time, to prove and build the library; then at once)"
	@echo "make bench           the library measured beside plain Rust, a HashMap and, where its archives are there,"
	@echo "                     the version before (bench/before.rs says how to make that)"
	@echo "                     (about 5 minutes, and some more where the library is not built yet)"

test:
	@tests/run

# Prints the frames of a job, the first of a fresh store.
list: job target/bin/listing
	@target/bin/listing <"$$JOB"

job:
	@tools/job "$$JOB"

# Takes a label into a store, quotes its revision and takes it, from C, and rebuilds both.
example: target/staticlib/libhirunvel.a
	@mkdir -p target/example
	@cc -std=c99 -Iinclude -o target/example/label_revision examples/label_revision.c -Ltarget/staticlib -lhirunvel
	@target/example/label_revision docs/example/label.zpl docs/example/label-2.zpl

# Prints how many chunks a job has with each of seven windows, and which bytes cause its cuts.
peaks: job target/staticlib/libhirunvel.a
	@mkdir -p target/example
	@cc -std=c99 -Iinclude -o target/example/peaks examples/peaks.c -Ltarget/staticlib -lhirunvel
	@target/example/peaks <"$$JOB"

# Measures the library beside plain implementations of the same operations, and beside the version before if both of its
# archives are there. Without position-independent code the calls of the archives are direct, as those of the plain ones
# are. Where machine code lies changes how fast it is: the functions of the archives are placed at multiples of PLACE bytes,
# in copies, the plain ones at multiples of 64. What is slower because of its code is slower in more than one place.
PLACE ?= 64
libraries := target/staticlib/libhirunvel.a target/staticlib/libchunk_count.a
before := target/bench/before/libhirunvel_before.a target/bench/before/libchunk_count_before.a
found_before = $(if $(filter 2,$(words $(wildcard $(before)))),$(before))

bench: $(libraries)
	@mkdir -p target/bench/placed
	@python3 bench/inputs.py target/bench
	@for archive in $(libraries) $(found_before); do \
	    objcopy --set-section-alignment '.text*=$(PLACE)' $$archive target/bench/placed/$${archive##*/} || exit; done
	@rustc --edition 2021 -O --check-cfg 'cfg(before)' $(if $(found_before),--cfg before) -C relocation-model=static \
	    -C llvm-args=-align-all-functions=6 -L native=target/bench/placed -o target/bench/bench bench/main.rs
	@target/bench/bench target/bench

# A program, and a library for C: proved and built again if anything in the crates is newer, but for what checks keep in out/.
crates := crates.txt $(shell find crates -name out -prune -o -print)

target/bin/%: $(crates)
	@tools/prove $*
	@touch -c $@

target/staticlib/lib%.a: $(crates)
	@tools/prove $*
	@touch -c $@
