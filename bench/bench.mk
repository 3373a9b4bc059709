# The library beside a decoder written by hand. `make bench` prints the whole table.

BENCH := build/bench
DECODER_SOURCES := $(wildcard bench/decoder_*.c)
DECODER_OBJECTS := $(DECODER_SOURCES:bench/%.c=$(BENCH)/%.o)
BENCH_OBJECTS := $(patsubst bench/%.c,$(BENCH)/%.o,$(wildcard bench/*.c))
BENCH_CFLAGS := $(CFLAGS) -Ibench -I$(BENCH) -Ihost

SIZE_OF = "$$(size -t $(1) | awk 'END { print $$4 }')"

.PHONY: bench bench-test

# The rows of both SAE tables as C, from the listing that is compared with the library's own lookups.
$(BENCH)/sae_rows.h: crates/table_rows/stdout
	@mkdir -p $(BENCH)
	{ echo 'static const struct prn_row sae_prns[] = {'; \
	  sed -n '/^P /{s///;s/ /, 0x/g;s/.*/    {0x&},/;p;}' $<; \
	  printf '};\n\nstatic const struct slot_row sae_slots[] = {\n'; \
	  sed -n '/^S /{s///;s/ /, 0x/g;s/.*/    {0x&},/;p;}' $<; \
	  echo '};'; } > $@

$(BENCH)/%.o: bench/%.c $(wildcard bench/*.h) host/format.h include/rakhubole.h $(BENCH)/sae_rows.h
	$(CC) $(BENCH_CFLAGS) -c $< -o $@

# Bound at the start, so that no lookup of a name counts as part of a call.
$(BENCH)/bench: $(BENCH_OBJECTS) archive
	$(CC) $(BENCH_OBJECTS) $(ARCHIVE) -Wl,-z,now -o $@

bench: $(BENCH)/bench ## print time, stack and size of the library beside those of a decoder in C
	@sed -n 's/^model name[^:]*: /machine: /p' /proc/cpuinfo | head -n 1
	@$(BENCH)/bench times crates
	@bench/instructions.sh $(BENCH)/bench
	@$(BENCH)/bench stack crates
	@printf '\nBytes of code and tables, as size counts them:\n\n%-28s %12s %12s\n' '' archive C
	@printf '%-28s %12s %12s\n' 'all eleven calls' $(call SIZE_OF,$(ARCHIVE)) $(call SIZE_OF,$(DECODER_OBJECTS))
	@echo; echo "Names that the archive takes from outside:" $$(nm -u $(ARCHIVE) | awk '$$1 == "U" { print $$2 }')

checks: bench-test

bench-test: $(BENCH)/bench ## compare the answers of the library with those of the decoder in C
	$(BENCH)/bench compare crates
