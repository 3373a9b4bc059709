# The library, the host tool, their checks and a demonstration. Everything that is made stands in build/ and the crates' out/.
# `make help` prints what stands behind ## at each target.

ARCHIVE := build/librakhubole.a
# The crate of the exported calls, and the static library that rt lib builds of it.
EXPORTS := crates/c_api_c
PROVED := $(EXPORTS)/out/libc_api_c.a
PEER := build/peer/release
CFLAGS := -std=c99 -O2 -Wall -Wextra -Wpedantic -Werror -Iinclude
CARGO := CARGO_TARGET_DIR=$(CURDIR)/build/peer RAKHUBOLE_ARCHIVE_DIR=$(CURDIR)/$(dir $(ARCHIVE)) cargo
RANDOM_FRAMES := 1000000
RANDOM_MESSAGES := 500000
RANDOM_SUPPLEMENTS := 300000
RANDOM_REPORTS := 750000
RANDOM_PROMISES := 150000
RANDOM_STREAMS := 200000
SEED := 1
# Document 003 as text; where it is not at hand the tables are taken as committed.
SOURCE := ../shared/003_c37128ede7d9c935.txt

TOOL := build/rakhubole
TOOL_SOURCES := $(wildcard host/*.c)
TOOL_HEADERS := $(wildcard host/*.h) include/rakhubole.h
TOOL_CFLAGS := $(CFLAGS) -D_XOPEN_SOURCE=700

.PHONY: all help archive demo test checks tables tables-check peer peer-tests vectors random tool-test clean

all: $(TOOL) ## prove the library and build the host tool, build/rakhubole

help: ## list what make can run
	@awk -F ':.*## ' '/^[a-z-]+:.*## / { printf "%-12s  %s\n", $$1, $$2 }' $(MAKEFILE_LIST)

archive: ## prove the library and write what a C program links, build/librakhubole.a
	@mkdir -p build
	cd $(EXPORTS) && rt lib
	cmp -s $(PROVED) $(ARCHIVE) || cp $(PROVED) $(ARCHIVE)

# The host tool, over the header and the archive alone.
$(TOOL): archive $(TOOL_SOURCES) $(TOOL_HEADERS)
	$(CC) $(TOOL_CFLAGS) $(TOOL_SOURCES) $(ARCHIVE) -o $@

demo: $(TOOL) ## run the host tool on the samples
	$(TOOL) check samples/van.sup
	$(TOOL) show samples/van.sup
	$(TOOL) report samples/van.sup samples/van.log
	($(TOOL) send 486B10 416580; $(TOOL) send 486B10 4500961FC0) | $(TOOL) report --exact samples/van.sup -
	$(TOOL) frame $$($(TOOL) send 631AF1 - 1234)
	$(TOOL) report --bus iso9141 samples/van.sup samples/iso.log
	$(TOOL) frame --bus iso9141 $$($(TOOL) send --bus iso9141 686AF1 010C)
	grep -v ' 00 7C$$' samples/van.log | $(TOOL) pack - build/van.stream
	cat build/van.stream samples/damaged.stream | $(TOOL) report --adapter samples/van.sup -

test: ## run everything: the checks, then the proofs, the must-fail edits and the programs
	bash .ci/run

checks: tables-check peer-tests vectors random tool-test ## run all checks that stand beside the proofs

tables: ## write the SAE tables of code, definitions, documentation and host tool from document 003
	tools/sae_tables.py $(SOURCE)

tables-check: ## test the transcription and compare the committed tables with document 003
	@if [ -f $(SOURCE) ]; then \
		tools/sae_tables.py $(SOURCE) --test && tools/sae_tables.py $(SOURCE) --check; \
	else \
		echo "tables-check: $(SOURCE) is not at hand; the tables stand as committed"; \
	fi

peer: archive ## build the independent second program
	cd peer && $(CARGO) build --offline --release --bins

peer-tests: ## run the second program's own tests, of its tables too where document 003 is at hand
	cd peer && RAKHUBOLE_SOURCE=$(abspath $(wildcard $(SOURCE))) $(CARGO) test --offline --release --lib

vectors: peer ## compare the committed vector files with those that the second program writes
	rm -rf build/vectors
	$(PEER)/vectors frame build/vectors/frame_vectors
	$(PEER)/vectors supplement build/vectors/supplement_vectors
	$(PEER)/vectors tables build/vectors/table_rows
	$(PEER)/vectors report build/vectors/report_vectors
	$(PEER)/vectors stream build/vectors/stream_vectors
	for f in $$(cd build/vectors && find . -type f); do cmp build/vectors/$$f crates/$$f || exit 1; done

random: peer ## run random cases through the archive, judged by the second program
	$(PEER)/compare frame $(RANDOM_FRAMES) $(SEED)
	$(PEER)/compare iso $(RANDOM_MESSAGES) $(SEED)
	$(PEER)/compare supplement $(RANDOM_SUPPLEMENTS) $(SEED)
	$(PEER)/compare report $(RANDOM_REPORTS) $(SEED)
	$(PEER)/compare promise $(RANDOM_PROMISES) $(SEED)
	$(PEER)/compare stream $(RANDOM_STREAMS) $(SEED)

# The tool over a library that gives odd answers, to see what it does with them.
$(TOOL)-odd: host/tests/odd_library.c $(TOOL_SOURCES) $(TOOL_HEADERS)
	@mkdir -p build
	$(CC) $(TOOL_CFLAGS) $(TOOL_SOURCES) host/tests/odd_library.c -o $@

tool-test: $(TOOL) $(TOOL)-odd ## test the host tool
	host/tests/run.py $(TOOL) samples host/tests/*.cases
	host/tests/properties.py $(TOOL) samples

clean: ## remove everything that was made
	rm -rf build crates/*/out

include bench/bench.mk
include fuzz/fuzz.mk
