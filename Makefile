.PHONY: quick demo rust rust-packages rust-crate-test rust-doc rust-package library-unproved \
	quick-test rust-test rust-test-long replay batches check test more-edits refused-memory \
	json-examples stalled-pipes live-pipes readme-runs manual-page program-runs library \
	install uninstall library-test languages-test store-test cluster-test fuzz rust-plant \
	plant bench profile profile-explain

# The Cargo edition: the same sources, clauses erased, built by rustc. It needs Rust 1.85, cc, make
# and python3, and no network.

# Builds the programs: out/quick/replay, out/quick/batches, out/quick/workload. Not proved.
quick:
	cargo/quick

# Runs the program of the Cargo edition on the recorded files of examples/. A file NAME.args names
# the further files of a run.
demo: quick
	@set -e; cd examples; for file in *; do \
		case "$$file" in *.*) continue ;; esac; \
		[ -f "$$file" ] || continue; \
		echo "== $$file"; \
		../out/quick/replay "$$file" $$(cat "$$file.args" 2> /dev/null) || echo "status $$?"; \
	done

# Writes and builds the workspace for Rust programmers in out/rust, over crates.io's crates where
# one serves.
rust:
	cargo/rust

# Installs the crates that out/rust uses as Debian's packages, where crates.io isn't to be reached.
rust-packages:
	cargo/packages

# Tests the crate archcaraway of out/rust, its examples in the documentation too.
rust-crate-test: rust
	cd out/rust && cargo test --release --quiet --package archcaraway

# Builds the documentation of out/rust: out/rust/target/doc/archcaraway/index.html. A warning is an
# error.
rust-doc: rust
	cd out/rust && RUSTDOCFLAGS='-D warnings' cargo doc --quiet --workspace --no-deps

# Packages each crate of out/rust, as for crates.io, without building it.
rust-package: rust
	cargo/package

# Builds the library for C by cargo: out/quick/libarchcaraway.a and out/quick/libarchcaraway.so. Not
# proved. PROCESSOR=x86-64 builds for every x86-64 processor, into out/quick/x86-64.
library-unproved:
	cargo/library

# Tests the Cargo edition in minutes, without the Rattle toolchain: the eraser, the programs
# beside what the documents say, the crates, and the crate archcaraway beside `replay --resolvers`.
quick-test: quick
	cd cargo && python3 -m unittest discover --quiet --pattern 'test_*.py'
	cargo/compare --alone
	cargo/test
	.ci/resolvers-test out/quick/tests/release/examples/resolvers

# After `make quick` and `make test`, compares the Cargo edition with the proved programs: the
# worked rows, the examples and 2,000 drawn cases. If the proved programs are not there, it says so,
# and compares with what the documents say alone.
rust-test:
	cargo/compare

# The same with 20,000 drawn cases, and a hundred times as many cases of the crates' tests.
rust-test-long:
	cargo/compare --runs 20000
	ARCHCARAWAY_LONG=1 cargo/test

# Inverts a comparison of an erased crate, 15 times, and shows that `make rust-test` finds it within
# a minute.
rust-plant: quick
	cargo/plant

# The proved edition: everything below needs the Rattle toolchain with its command `rt`.

# Proves and builds the program, and runs it once. `make test` builds it, too: it proves crates side
# by side, and this in sequence.
replay:
	cd crates/replay && rt run -- ../../examples/first_run
	@echo 'The proved program: crates/replay/out/replay'

# Proves and builds the library for C: out/libarchcaraway.a, out/libarchcaraway.so,
# out/archcaraway.pc.
library:
	.ci/library

# Installs the library for C that is in BUILT (out, or out/quick for that of the Cargo edition), its
# headers, and its packages for pkg-config and CMake. DESTDIR, PREFIX (/usr/local), LIBDIR
# (PREFIX/lib) and INCLUDEDIR (PREFIX/include) say where.
install:
	library/install

# Removes what `make install` with the same variables has installed.
uninstall:
	library/install --remove

.PHONY: install-programs uninstall-programs completions completions-test

# Installs the programs in BUILT (out/quick, or crates for the proved ones), their manual pages and
# their completions for bash, zsh and fish. DESTDIR and PREFIX (/usr/local) say where.
install-programs:
	completions/install-programs

# Removes what `make install-programs` with the same variables has installed.
uninstall-programs:
	completions/install-programs --remove

# Writes the completions anew, from what the programs of out/quick print for `--help`.
completions: quick
	completions/generate

# After `make quick`, compares the completions with the programs, and completes lines in bash, zsh
# and fish.
completions-test:
	.ci/completions

# After `make test`, tests the library for C: examples, chains beside the program, sanitizers,
# valgrind, refused memory, languages.
library-test: library
	.ci/library-test

# Tests the library of BUILT in each language: C, C++, Python, Go, Rust; their examples, and the
# snippets of documents.
languages-test:
	.ci/languages-test

# Tests the store of examples/store over the library in BUILT (out/quick): each workload for
# SECONDS_EACH (10) seconds, kills, controls.
store-test:
	.ci/store-test

# Tests the resolvers and proxies of examples/cluster over the library in BUILT (out/quick), after
# `make quick` and `make library-unproved`.
cluster-test:
	.ci/cluster-test

# Fuzzes the library that cargo builds, and the proved one if it is in out/, for SECONDS (30) each.
# Needs clang with its runtime.
fuzz:
	SECONDS_EACH=$(or $(SECONDS),30) .ci/fuzz-test

# Proves and builds the program that turns lines of JSON into batches, and shows that the examples
# and their JSON are the other.
batches:
	cd crates/batches && rt run -- --version
	.ci/json-examples
	@echo 'The proved program: crates/batches/out/batches'

# After `make test` or `make batches`: encodes the JSON of each example, and decodes the example,
# and compares.
json-examples:
	.ci/json-examples

# The number of crates that `make check` proves at the same time.
JOBS ?= $(shell nproc)

# Proves every crate, without tests, edits and programs. What hasn't changed since an earlier check
# isn't proved again.
check:
	rt all check --jobs $(JOBS)

# The first part of the full check (.ci/run): every proof, the must-fail edits, the tests and the
# programs, as many at a time as .ci/jobs prints. CONTRIBUTING.md says which toolchains take the
# proofs that an earlier run has kept.
test:
	RT_JOBS=$${RT_JOBS:-$$(.ci/jobs)} rt ci

# Tries the edits of edits/, which `make test` leaves out: all, or those of CRATES='NAME..'. Best
# after `make test` or, where `rt ci` takes no names, after `make check`: it takes the proofs that
# these have kept.
more-edits:
	.ci/more-edits $(CRATES)

# After `make test`: refuses each allocation in turn to the tests named for it and to the program,
# as that has built them.
refused-memory:
	.ci/refused-memory

# After `make test` or `make replay`: deals a chain of batches to pipes of which some stall, and
# compares what the program prints.
stalled-pipes:
	.ci/stalled-pipes

# After `make test` or `make replay`, runs `replay --stream` over pipes and looks at what comes
# while they are open. Then runs the proxy of examples/pipes.
live-pipes:
	.ci/live-pipes
	.ci/pipes-test crates/replay/out/replay

# After `make test`, runs the commands of the documents that call a built program, and compares what
# they print. After `make quick`, EDITION=cargo runs those of the Cargo edition.
readme-runs:
	.ci/readme-runs

.PHONY: figures figures-test

# Redraws the pictures of docs/figures. That of the crates follows crates.txt, those of times the
# newest bench/results/*-programs.csv.
figures:
	for script in docs/figures/*.py; do [ ! -x "$$script" ] || python3 -B "$$script" || exit 1; done

# Redraws them into a temporary folder, and says which picture of the checkout is stale.
figures-test:
	.ci/figures

# After `make test`: compares the manual pages with what the programs print of their options and
# versions.
manual-page:
	.ci/manual-page

# After `make test` or `make replay`, runs the program on words that it refuses, on paths that have
# no frames, for its help, and on a terminal.
program-runs:
	.ci/program-runs
	.ci/progress-test

# Tries wrong bodies on a copy of each crate, and lists those that its contracts admit.
plant:
	for crate in crates/*/; do (cd "$$crate" && rt plant); done

.PHONY: bench-quick bench-test

# Measures replay, proved if it is built, beside the baselines of bench/baselines, and redraws the
# charts. Needs cc, c++, cargo and python3. Arguments for bench/measure:
# make bench BENCH='--rounds 3 --only wide'.
bench:
	bench/measure $(BENCH)
	$(MAKE) --no-print-directory figures

# Compares the outputs of replay and the baselines on two small files. Reports no times.
bench-quick: bench-test
	bench/measure --quick

# Tests the parts of bench/measure that start no process.
bench-test:
	cd bench && python3 -B -m unittest

# Times the libraries of the Cargo edition on a file of batch frames: make profile FILE=batches. The
# program stays in out/profile.
profile:
	cargo/erase.py out/profile --add profile/detect
	RUSTFLAGS="-Ctarget-cpu=x86-64-v2 -g" cargo build --manifest-path out/profile/Cargo.toml \
		--quiet --release --offline --bin archcaraway-detect
	out/profile/target/release/archcaraway-detect '$(FILE)'

# The same for explaining each conflict of the file.
profile-explain:
	cargo/erase.py out/profile --add profile/explain
	RUSTFLAGS="-Ctarget-cpu=x86-64-v2 -g" cargo build --manifest-path out/profile/Cargo.toml \
		--quiet --release --offline --bin archcaraway-explain
	out/profile/target/release/archcaraway-explain '$(FILE)'
