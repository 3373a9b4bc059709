# Fuzz targets, one for each exported call and one for those of the stream, judged by the second program.
# `make fuzz SECONDS=600` runs each for that time; `make fuzz-replay` runs the committed inputs through the same code and
# needs no libFuzzer.

FUZZ := build/fuzz
FUZZ_CALLS := read write check report iso_read iso_write iso_report stream
JUDGE := build/judge/release/libjudge.a
CLANG := clang
SECONDS := 60
FAULTY_CALLS := report iso_report stream

FUZZ_SOURCES := $(addprefix fuzz/,judged.c draft.c supplement.c lent.c classes.c judge.c) bench/calls.c $(DECODER_SOURCES)
# An input of the stream's target makes many calls, one of any other target a single one.
TARGET_SOURCES = fuzz/$(1).c $(if $(filter stream,$(1)),,fuzz/one_call.c) $(FUZZ_SOURCES)
FUZZ_NEEDS := $(FUZZ_SOURCES) fuzz/one_call.c bench/archive.c $(wildcard fuzz/*.h bench/*.h) host/format.h $(BENCH)/sae_rows.h include/rakhubole.h $(JUDGE) archive
FUZZ_CFLAGS := $(BENCH_CFLAGS) -Ifuzz -g -fno-sanitize-recover=all
JUDGE_LIBRARIES := $(JUDGE) -lpthread -ldl -lm
FUZZ_LIBRARIES := bench/archive.c $(ARCHIVE) $(JUDGE_LIBRARIES)

.PHONY: judge fuzz fuzz-replay fuzz-faults fuzz-corpus bit-errors alike

$(JUDGE): judge

judge: ## build the second program as a static library with the calls of rakhubole.h
	cd fuzz/judge && CARGO_TARGET_DIR=$(CURDIR)/build/judge cargo build --offline --release

$(FUZZ)/%-replay: fuzz/%.c fuzz/replay.c $(FUZZ_NEEDS)
	@mkdir -p $(FUZZ)
	$(CC) $(FUZZ_CFLAGS) -fsanitize=address,undefined $(call TARGET_SOURCES,$*) fuzz/replay.c $(FUZZ_LIBRARIES) -o $@

$(FUZZ)/%-fuzz: fuzz/%.c fuzz/fuzzer_counts.c $(FUZZ_NEEDS)
	@mkdir -p $(FUZZ)
	$(CLANG) $(FUZZ_CFLAGS) -fsanitize=fuzzer,address,undefined $(call TARGET_SOURCES,$*) fuzz/fuzzer_counts.c $(FUZZ_LIBRARIES) -o $@

checks: fuzz-replay fuzz-faults

fuzz-replay: $(FUZZ_CALLS:%=$(FUZZ)/%-replay) ## run the committed fuzz inputs through every call
	for call in $(FUZZ_CALLS); do $(FUZZ)/$$call-replay fuzz/corpus/$$call || exit 1; done

$(FUZZ)/faulty-%-replay: fuzz/%.c fuzz/faulty.c fuzz/replay.c $(FUZZ_NEEDS)
	@mkdir -p $(FUZZ)
	$(CC) $(FUZZ_CFLAGS) -fsanitize=address,undefined $(call TARGET_SOURCES,$*) fuzz/faulty.c fuzz/replay.c $(JUDGE_LIBRARIES) -o $@

# Without a fault the replay of a call passes, with each of these it does not: call, faults.
define SEE_FAULTS
	FAULT=0 $(FUZZ)/faulty-$(1)-replay fuzz/corpus/$(1) > $(FUZZ)/fault-0.log
	for fault in $(2); do \
		log=$(FUZZ)/fault-$$fault.log; \
		if FAULT=$$fault $(FUZZ)/faulty-$(1)-replay fuzz/corpus/$(1) > $$log 2>&1; then \
			echo "fault $$fault was not seen"; exit 1; \
		fi; \
	done
endef

fuzz-faults: $(FAULTY_CALLS:%=$(FUZZ)/faulty-%-replay) ## see that the replay finds each of twenty-five faults put in on purpose
	$(call SEE_FAULTS,report,1 2 3 4 5 6 7 8 9 10 11 12 13 14)
	$(call SEE_FAULTS,iso_report,15 16)
	$(call SEE_FAULTS,stream,17 18 19 20 21 22 23 24 25)

# New inputs stay in build/; one that fails is named there too.
fuzz: $(FUZZ_CALLS:%=$(FUZZ)/%-fuzz) ## fuzz every call with libFuzzer, SECONDS=60 each (needs clang)
	for call in $(FUZZ_CALLS); do \
		mkdir -p $(FUZZ)/corpus/$$call; \
		$(FUZZ)/$$call-fuzz -max_total_time=$(SECONDS) -max_len=1024 -print_final_stats=1 -verbosity=0 \
			-artifact_prefix=$(FUZZ)/$$call- $(FUZZ)/corpus/$$call fuzz/corpus/$$call || exit 1; \
	done

# The inputs of build/ and of the vectors, of which as few are kept as reach all that was reached.
fuzz-corpus: $(FUZZ_CALLS:%=$(FUZZ)/%-fuzz) ## make the committed fuzz inputs anew (needs clang)
	rm -rf $(FUZZ)/seeds $(FUZZ)/merged
	fuzz/seeds.py crates $(FUZZ)/seeds
	for call in $(FUZZ_CALLS); do \
		mkdir -p $(FUZZ)/merged/$$call $(FUZZ)/corpus/$$call fuzz/corpus/$$call; \
		$(FUZZ)/$$call-fuzz -set_cover_merge=1 -max_len=1024 $(FUZZ)/merged/$$call \
			fuzz/corpus/$$call $(FUZZ)/corpus/$$call $(FUZZ)/seeds/$$call > $(FUZZ)/merge.log 2>&1 || exit 1; \
		rm -rf fuzz/corpus/$$call; \
		cp -r $(FUZZ)/merged/$$call fuzz/corpus/$$call; \
	done

$(FUZZ)/bit_errors: fuzz/bit_errors.c $(FUZZ_NEEDS)
	@mkdir -p $(FUZZ)
	$(CC) $(BENCH_CFLAGS) -Ifuzz $< fuzz/judge.c bench/calls.c $(DECODER_SOURCES) $(FUZZ_LIBRARIES) -o $@

checks: bit-errors

bit-errors: $(FUZZ)/bit_errors ## flip every bit of accepted frames and messages
	$(FUZZ)/bit_errors

CASES := 1000000
ALIKE_SOURCES := $(addprefix fuzz/,alike.c draft.c supplement.c classes.c judge.c) $(addprefix bench/,calls.c vectors.c)

# Every name that the earlier archive defines gets another; those that it takes from outside stay.
# It is linked whole: the weak names of its calls take no file out of an archive.
alike: $(FUZZ_NEEDS) ## compare with an earlier archive, BEFORE=its path, on the vectors and CASES=1000000 random cases
	@if [ ! -f "$(BEFORE)" ]; then echo "alike: BEFORE=path of an earlier archive is needed"; exit 2; fi
	@mkdir -p $(FUZZ)
	nm -g --defined-only $(BEFORE) | awk 'NF == 3 { print $$3, "before_" $$3 }' | sort -u > $(FUZZ)/before.names
	objcopy --redefine-syms=$(FUZZ)/before.names $(BEFORE) $(FUZZ)/before.a
	$(CC) $(BENCH_CFLAGS) -Ifuzz $(ALIKE_SOURCES) $(DECODER_SOURCES) \
		-Wl,--whole-archive $(FUZZ)/before.a -Wl,--no-whole-archive $(FUZZ_LIBRARIES) -o $(FUZZ)/alike
	$(FUZZ)/alike crates $(CASES)
