# The C side: the library for C programs, its examples, the outside check and the benchmark.
# Included by the Makefile at the top, or used alone: make -f mk/door.mk outside
#
#   make lib          build/libtwistdory.a, proved and compiled from the crate $(LIB_CRATE)
#   make examples     the header as C and C++, and the examples: compiled, run, compared
#   make outside      the outside check, short: under three minutes
#   make soak         the outside check, long; SEED, NETWORKS, TEXTS
#   make faults       planted faults, each of which the outside check must catch
#   make outside-self the outside check checked: against a stand-in for the library
#   make bench        the library beside a plain C simulator, on real shapes, and a plain C reader of texts
#   make beside       this library beside an earlier one, on the same shapes; BEFORE names its archive
#
# LIBRARY names the archive in build/ that is checked. The stand-in is one: LIBRARY=libstandin.

LIB_CRATE ?= door
LIBRARY ?= libtwistdory
SEED ?= 1
NETWORKS ?= 1000000
TEXTS ?= 200000

DOOR_INCLUDES = -Iinclude -Icompare
DOOR_CFLAGS = -std=c11 -O2 -Wall -Wextra -Werror $(DOOR_INCLUDES)
DOOR_HEADERS = $(wildcard include/*.h compare/*.h outside/*.h) outside/texts/texts.txt
DOOR_CC = cc=$$(sh mk/toolchain.sh cc)
DOOR_RUN = run=$$(sh mk/toolchain.sh run)

.PHONY: lib examples outside soak faults outside-self bench beside
.PRECIOUS: build/%.o

# ---- the library

lib: build/libtwistdory.a

DOOR_CRATES = $(wildcard crates.txt) $(shell find crates -name out -prune -o \( -name '*.rt' -o -name '*.antt' \) -print 2>/dev/null)

build/libtwistdory.a: $(DOOR_CRATES)
	@sh mk/prove.sh lib $(LIB_CRATE)
	@cp crates/$(LIB_CRATE)/out/lib$(LIB_CRATE).a $@

# A stand-in over the plain C simulator and reader: it tests the outside check, and nothing else uses it.
build/libstandin.a: build/outside/standin.o build/outside/standin_text.o build/compare/plain.o build/compare/hashed.o
	@rm -f $@ && ar=$$(sh mk/toolchain.sh ar) && $$ar rcs $@ $^

# ---- programs, for each library in a folder of its own

# The programs to compare with never read the library's header.
build/compare/%.o build/fast/compare/%.o: DOOR_INCLUDES = -Icompare

build/%.o: %.c $(DOOR_HEADERS)
	@mkdir -p $(@D)
	@$(DOOR_CC) && $$cc $(DOOR_CFLAGS) -c -o $@ $<

DOOR_PARTS = build/outside/door.o build/outside/guard.o build/outside/lend.o build/compare/network.o build/compare/brute.o
TEXT_PARTS = build/outside/text_door.o build/compare/texts.o build/compare/reader.o
HOST_PARTS = build/outside/host.o build/outside/numbers.o build/outside/check_bench_set.o build/outside/check_refusals.o \
	build/outside/check_full_size.o build/outside/check_small.o build/outside/check_random.o build/outside/check_texts.o \
	build/outside/check_claims.o $(DOOR_PARTS) $(TEXT_PARTS)
BENCH_PARTS = build/fast/perf/bench.o build/fast/compare/shapes.o build/fast/compare/plain.o \
	build/fast/compare/text_shapes.o build/fast/compare/hashed.o

build/%/host: $(HOST_PARTS) build/%.a
	@mkdir -p $(@D)
	@$(DOOR_CC) && $$cc -o $@ $^

build/%/arrivals: build/outside/arrivals.o $(DOOR_PARTS) build/%.a
	@mkdir -p $(@D)
	@$(DOOR_CC) && $$cc -o $@ $^

build/plain-check: build/compare/plain_check.o build/compare/plain.o build/compare/network.o build/compare/brute.o
	@$(DOOR_CC) && $$cc -o $@ $^

build/reader-check: build/compare/reader_check.o build/compare/hashed.o build/compare/texts.o build/compare/reader.o
	@$(DOOR_CC) && $$cc -o $@ $^

build/verilog-writer: build/perf/verilog.o build/compare/shapes.o build/compare/plain.o
	@$(DOOR_CC) && $$cc -o $@ $^

# At -O3, the level at which the library is compiled.
build/fast/%.o: %.c $(DOOR_HEADERS)
	@mkdir -p $(@D)
	@$(DOOR_CC) && $$cc $(DOOR_CFLAGS) -O3 -c -o $@ $<

build/%/bench: $(BENCH_PARTS) build/%.a
	@mkdir -p $(@D)
	@$(DOOR_CC) && $$cc -o $@ $^

# ---- checks

examples: build/$(LIBRARY).a
	@sh examples/check.sh build/$(LIBRARY).a

# Under the emulator everything takes some twenty times as long: fewer networks and texts there.
outside: build/$(LIBRARY)/host build/$(LIBRARY)/arrivals build/plain-check build/reader-check
	@sh outside/texts/check.sh --claims $(SEED) 2000 build/claims
	@$(DOOR_RUN) && \
	if [ -n "$$run" ]; then part=1000 networks=4000 texts=1000 arrivals=20000; \
	else part=10 networks=60000 texts=15000 arrivals=400000; fi && \
	$$run build/plain-check && $$run build/reader-check && \
	$$run build/$(LIBRARY)/host --seed $(SEED) --networks $$networks --texts $$texts --small-part $$part --claims build/claims && \
	$$run build/$(LIBRARY)/arrivals --seed $(SEED) --networks $$arrivals

soak: build/$(LIBRARY)/host build/$(LIBRARY)/arrivals
	@sh outside/texts/check.sh --claims $(SEED) 20000 build/claims
	@$(DOOR_RUN) && \
	nice $$run build/$(LIBRARY)/host --seed $(SEED) --networks $(NETWORKS) --texts $(TEXTS) --small-part 1 --claims build/claims && \
	nice $$run build/$(LIBRARY)/arrivals --seed $(SEED) --networks $(NETWORKS)

faults: build/$(LIBRARY).a
	@nice sh outside/faults/plant.sh build/$(LIBRARY).a

outside-self: build/libstandin/host build/libstandin/arrivals build/plain-check build/reader-check
	@sh outside/texts/check.sh && sh outside/texts/check.sh --self-test
	@sh outside/texts/check.sh --claims $(SEED) 2000 build/claims
	@$(DOOR_RUN) && \
	$$run build/plain-check && $$run build/reader-check && \
	$$run build/libstandin/host --seed $(SEED) --networks 2000 --texts 2000 --small-part 1000 --claims build/claims && \
	$$run build/libstandin/arrivals --seed $(SEED) && \
	sh outside/faults/plant.sh build/libstandin.a quick

# ---- the benchmark

bench: build/$(LIBRARY)/bench build/verilog-writer
	@$(DOOR_CC) && $(DOOR_RUN) && \
	echo "plain C compiled by $$($$cc --version | head -1) at -O3; library: build/$(LIBRARY).a" && \
	$$run build/$(LIBRARY)/bench --seed $(SEED) $${run:+--emulated}
	@sh perf/verilog.sh build/verilog-writer

build/before.a: $(BEFORE)
	@[ -n "$(BEFORE)" ] || { echo 'make beside BEFORE=archive: which library to compare with'; exit 2; }
	@cp $(BEFORE) $@

beside: build/before/bench build/$(LIBRARY)/bench
	@sh perf/beside.sh $^
