# The commands that one types, at the top of the repository; `make` alone lists them. They need the kit's `rt`.

.PHONY: help check test tidy gate build bench docs pictures outside

help:  ## lists these commands
	@sed -n 's/^\([a-z]*\):.*## \(.*\)/make \1\t\2/p' Makefile

check:  ## crate=NAME: proves a crate, and what it stands on where that changed
	cd crates/$(crate) && rt check

test:  ## crate=NAME: proves a crate and its tests, and runs these
	cd crates/$(crate) && rt test

tidy:  ## crate=NAME: forms a crate's code, and drops imports that nothing uses
	cd crates/$(crate) && rt fmt && rt tidy

gate:  ## the merge gate: all crates, wrong edits, tests and programs
	rt ci

build:  ## proves and builds the program, and runs it on two lines
	cd crates/mprof && rt run -- --window 3 < stdin

bench:  ## script=NAME: runs a script of bench, such as script=scan
	bench/$(script).sh

docs:  ## tells where a document shows something else than its stored run, and finds dead links
	docs/show --check
	checks/links

pictures:  ## draws the pictures of the cookbook anew
	for script in examples/*-*.sh; do "$$script"; done

outside:  ## tries the built program from outside: statuses and refused allocations
	checks/statuses
	checks/memory
