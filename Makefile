# Proves, tests and measures the repository; `make help` lists the targets.
# What takes more than one command is a script in tools/, run from here.

# All targets work in target/, so one waits for the other whatever -j says.
.NOTPARALLEL:
.PHONY: help test report bench fuzz lib fmt clean

# What a user gives goes to the scripts as it stands, through the environment: make would take a $ in it for its own, the
# shell a quote. The names are others, since a shell may have a SECONDS of its own.
unexport FILE SECONDS SEED STEP
export GIVEN_FILE := $(value FILE)
export GIVEN_SECONDS := $(value SECONDS)
export GIVEN_SEED := $(value SEED)
export GIVEN_STEP := $(value STEP)

help:
	@echo 'make test              prove every crate and run every test; the last line is the count'
	@echo 'make report FILE=PATH  print the report on the chain file PATH'
	@echo 'make bench             on x86-64: time each call and count its instructions, against the plain Rust implementation'
	@echo 'make fuzz              try every C call on drawn inputs until interrupted; SECONDS= bounds it, SEED= and STEP=,'
	@echo '                       which a failure prints, repeat it'
	@echo 'make lib               prove the library and write target/staticlib/libardenquill.a'
	@echo 'make fmt               format every .rt and .antt file'
	@echo 'make clean             remove all that was made: target/, and what rt keeps of each crate'

test:
	@sh tools/gate

report:
	@exec sh tools/report "$$GIVEN_FILE"

bench:
	@sh tools/bench

fuzz:
	@sh tools/fuzz check "$$GIVEN_SECONDS" "$$GIVEN_SEED" "$$GIVEN_STEP"
	@exec sh tools/build lib
	@sh tools/fuzz longer "$$GIVEN_SECONDS" "$$GIVEN_SEED" "$$GIVEN_STEP"

lib:
	@exec sh tools/build lib
	@echo 'target/staticlib/libardenquill.a is proved and up to date'

fmt:
	@for crate in crates/*/; do (cd "$$crate" && rt fmt) || exit; done

clean:
	@rm -rf target crates/*/out
