# `make test` is the gate: every proof, every must-fail edit, every program and example, what the documents cite, and
# where they can be built the header's test, the bridge, the oracle and a short comparison. It leaves the programs in
# target/bin and the archive in target/staticlib; where a source is newer, the other targets build what they need of
# these (`scripts/build`). `make run` runs the program on document 01's worked example; with STATEMENT=.. and
# SCHEMA=.. on other sheets. `make compare` runs both sides on the same pairs, `make compare-short` on fewer, with
# changed answers first, which it must report. `make bench` measures both, and writes the tables of docs/SPEED.md and
# docs/speed.svg. The archive is made before, unless NURBELLAT_LIB names a folder that has it, seen from `bridge/`;
# before that it is seen whether the published sources are at hand (CYRS_SRC, see `oracle/at-hand`).
.PHONY: test run sheets citations at-hand oracle-test archive header-test bridge-test compare compare-short bench
# What stands first among the things that a target needs is done first.
.NOTPARALLEL:

STATEMENT = crates/nurbellat/data/statement.sheet
SCHEMA = crates/nurbellat/data/schema.sheet
PAIRS = 1000000
SEED = 20261115
THREADS = 2
CARGO = nice cargo
SOURCES := $(shell find crates -name out -prune -o \( -name '*.rt' -o -name '*.antt' \) -print)
BOTH = cd oracle && $(CARGO) run --release --offline -j1 --quiet -p both --

test:
	@.ci/test

# What a build proves is kept below crates/NAME/out, one crate after the other.
target/bin/%: $(SOURCES) crates.txt
	@echo "building $*: the first build proves what it needs, which takes long; later ones take seconds"
	@scripts/progress target/run.log scripts/build $* || { echo "target/run.log has all of it"; exit 1; }

target/staticlib/lib%.a: $(SOURCES) crates.txt
	@scripts/progress target/archive.log scripts/build $* || { echo "target/archive.log has all of it"; exit 1; }

sheets:
	@test -f "$(STATEMENT)" || { echo "no file $(STATEMENT)"; exit 1; }
	@test -f "$(SCHEMA)" || { echo "no file $(SCHEMA)"; exit 1; }

run: sheets target/bin/nurbellat
	@folder=$$(mktemp -d) && trap 'rm -rf "$$folder"' EXIT && \
	cp "$(STATEMENT)" "$$folder/statement.sheet" && cp "$(SCHEMA)" "$$folder/schema.sheet" && \
	program=$$PWD/target/bin/nurbellat && cd "$$folder" && "$$program"

citations:
	@scripts/citations

at-hand:
	@oracle/at-hand

oracle-test: at-hand
	cd oracle && $(CARGO) test --release --offline -j1 --quiet

archive: $(if $(NURBELLAT_LIB),,target/staticlib/libexports.a)

header-test: archive
	@bridge/c/test

bridge-test: archive
	cd bridge && $(CARGO) test --offline -j1 --quiet

compare: at-hand archive
	$(BOTH) run --pairs $(PAIRS) --seed $(SEED) --threads $(THREADS)

compare-short: at-hand archive
	$(BOTH) notice --threads $(THREADS)
	$(BOTH) run --pairs 50000 --threads $(THREADS)

bench: at-hand
	@command -v valgrind >/dev/null || { echo "bench: no valgrind at hand, which counts the instructions"; exit 1; }
	@$(MAKE) --no-print-directory archive
	cd bench && cargo test --offline -j1 --quiet && cargo run --release --offline -j1 --quiet -- run ../docs
