# The host side: the C header, the independent tests and the benchmark.
#
#   make -f tests/host/host.mk build        all programs
#   make -f tests/host/host.mk test-host    short tests
#   make -f tests/host/host.mk test-page    the picture of a session in a browser; needs chromium and chromium-driver
#   make -f tests/host/host.mk test-faults  the short tests of calls against each planted fault
#   make -f tests/host/host.mk test-machine  the same with faults in the library's machine code
#   make -f tests/host/host.mk soak         10 million calls, sheets, spellings and frame lines, from a new seed
#   make -f tests/host/host.mk season       seasons of one house, 10^9 calls, from a new seed
#   make -f tests/host/host.mk bench        times, as Markdown, CSV and SVG, in build/host/bench
#   make -f tests/host/host.mk clean
#
# LIB=path/to/libospreyscreen.a  the library; without it the optimised C of
#                                bench/ stands in under the library's names
# RUNNER=path/to/frame_runner    the frame runner; without it the plain C
#                                runner of bench/ stands in
# CALLS, CHECKED_CALLS,          how much is tested, under the sanitizers too,
# FRAME_LINES, SAMPLES           and timed
# SEED                           where random tests begin
# FROM                           the season to begin with
# FAULT_SEEDS                    the seeds that planted faults are tried with
# MOST_SURVIVORS                 how many faults of a hundred may survive in the machine code
# CC, CXX, CPPFLAGS, CFLAGS, CXXFLAGS, LDFLAGS, LDLIBS as usual; the flags come after those of this file

ifneq ($(filter default undefined,$(origin CC)),)
CC := gcc
endif
ifneq ($(filter default undefined,$(origin CXX)),)
CXX := g++
endif
LIB ?=
RUNNER ?=
SAMPLES ?= 401
RUNS := 1 2 3 4 5 6 7 8 9

FROM ?= 0
FAULT_SEEDS ?= 1,2,3,4,5
MOST_SURVIVORS ?= 15

# Short tests, soak and seasons differ where nothing is given.
ifeq ($(CALLS),)
CALLS := 200000
soak: CALLS := 10000000
season: CALLS := 1000000000
# The sanitizers see the C side alone, and make it many times slower.
soak: CHECKED_CALLS := 1000000
endif
CHECKED_CALLS ?= $(CALLS)
ifeq ($(FRAME_LINES),)
FRAME_LINES := 100000
soak: FRAME_LINES := 10000000
endif
ifeq ($(SEED),)
SEED := 1
soak season: SEED := $(strip $(shell od -An -N4 -tu4 /dev/urandom))
endif

WARNINGS := -Wall -Wextra -Wpedantic -Wconversion -Wshadow -Werror
SANITIZE := -fsanitize=address,undefined -fno-sanitize-recover=all -fno-omit-frame-pointer
C11 := -std=c11 $(WARNINGS) -Iinclude

# A text as one word of the shell, and what stands for a text in the name of a folder.
quote = '$(subst ','\'',$(1))'
HASH := sha256sum | cut -c1-16

# What is built stands under what it is built with: objects under the compilers, their flags and this
# file, programs under the library's bytes too. So nothing is run that was built with anything else,
# whatever the times of the files say.
GIVEN := CC CXX CPPFLAGS CFLAGS CXXFLAGS LDFLAGS LDLIBS WARNINGS SANITIZE
TOOLS_KEY := $(shell { $(CC) --version; $(CXX) --version; \
    readlink -f "$$(command -v $(firstword $(CC)))" "$$(command -v $(firstword $(CXX)))"; \
    printf '%s\n' $(foreach name,$(GIVEN),$(call quote,$($(name)))); \
    cat tests/host/host.mk; } 2>&1 | $(HASH))
LIB_HASH := $(if $(LIB),$(shell test -f $(call quote,$(LIB)) && cat $(call quote,$(LIB)) | $(HASH)),standin)
LIB_KEY := $(or $(LIB_HASH),missing)
OBJ := build/host/$(TOOLS_KEY)
BIN := $(OBJ)/$(LIB_KEY)

# The library under its key, or the objects that stand in for it.
ARCHIVE := $(BIN)/libospreyscreen.a
LIBRARY := $(if $(LIB),$(ARCHIVE),standin.o standin_votes.o optimised.o optimised_votes.o)
PLAIN_LIBRARY := $(LIBRARY:%.o=$(OBJ)/plain/%.o)
THE_RUNNER := $(call quote,$(or $(RUNNER),$(BIN)/plain/runner))

# The programs, one line of objects for each. Those of the second list are built with the sanitizers too.
PROGRAMS := differential votes_trial form_trial runner ref_runner random_frames print_calls cuts bench clean_frames \
    throughput format_dump ospreyscreen
CHECKED_PROGRAMS := differential votes_trial form_trial runner ref_runner ospreyscreen
EXAMPLES := examples/first_reading examples/season examples/votes examples/standard_form

LISTS := calls.o configurations.o damage.o draw.o generate.o guard.o lists.o outlook.o recorder.o reference.o runs.o
DIFFERENTIAL := differential.o attempt.o book.o diagnose.o directed.o optimised.o options.o plan.o reach.o season.o \
    spelling.o tally.o trial.o watch.o $(LISTS)
VOTES_TRIAL := votes_trial.o calls.o configurations.o guard.o optimised.o optimised_votes.o searched_votes.o \
    options.o meters.o ref_votes.o votes_cases.o votes_opinion.o votes_tally.o watch.o writers.o
FORM_TRIAL := form_trial.o calls.o configurations.o draw.o form_cases.o form_opinion.o form_tally.o guard.o \
    listed_form.o meters.o optimised.o options.o reference.o watch.o writers.o
OBJECTS_differential := $(DIFFERENTIAL) $(LIBRARY)
OBJECTS_votes_trial := $(VOTES_TRIAL) $(LIBRARY)
OBJECTS_form_trial := $(FORM_TRIAL) $(LIBRARY)
OBJECTS_bench := bench.o calls.o configurations.o form_rows.o listed_form.o optimised.o optimised_votes.o \
    searched_votes.o options.o times.o votes_rows.o $(LIBRARY)
OBJECTS_clean_frames := clean_frames.o calls.o configurations.o options.o
OBJECTS_format_dump := format_dump.o $(LIBRARY)
OBJECTS_runner := runner.o calls.o optimised.o
OBJECTS_ref_runner := ref_runner.o calls.o configurations.o options.o outlook.o reference.o tally.o
OBJECTS_random_frames := random_frames.o options.o $(LISTS)
OBJECTS_print_calls := print_calls.o calls.o
OBJECTS_cuts := cuts.o
OBJECTS_throughput := throughput.o
OBJECTS_examples/first_reading := examples/first_reading.o $(LIBRARY)
OBJECTS_examples/season := examples/season.o $(LIBRARY)
OBJECTS_examples/votes := examples/votes.o $(LIBRARY)
OBJECTS_examples/standard_form := examples/standard_form.o $(LIBRARY)
OBJECTS_ospreyscreen := $(patsubst %.c,%.o,$(sort $(wildcard cli/*.c))) $(LIBRARY)

PLAIN := $(PROGRAMS:%=$(BIN)/plain/%) $(EXAMPLES:%=$(BIN)/plain/%)
CHECKED := $(CHECKED_PROGRAMS:%=$(BIN)/checked/%) $(EXAMPLES:%=$(BIN)/checked/%)
CXX_EXAMPLES := $(EXAMPLES:%=$(BIN)/c++17/%) $(EXAMPLES:%=$(BIN)/c++20/%)

TESTS := test-header test-archive test-directed test-calls test-votes test-form test-frames test-tool test-program \
    test-make test-example test-readme test-docs
.PHONY: build test-host test-page test-faults test-machine soak season bench clean $(TESTS)
.DELETE_ON_ERROR:

build: $(PLAIN) $(CHECKED)

vpath %.c tests/host bench

$(OBJ)/plain/%.o: %.c
	@mkdir -p $(@D)
	$(CC) $(C11) -Itests/host -Ibench -MMD -MP -O3 $(CPPFLAGS) $(CFLAGS) -c $< -o $@

$(OBJ)/checked/%.o: %.c
	@mkdir -p $(@D)
	$(CC) $(C11) -Itests/host -Ibench -MMD -MP -O1 -g $(SANITIZE) $(CPPFLAGS) $(CFLAGS) -c $< -o $@

# The program needs a terminal and files, so POSIX beside C.
$(OBJ)/plain/cli/%.o $(OBJ)/checked/cli/%.o: C11 += -D_XOPEN_SOURCE=700 -D_DEFAULT_SOURCE

# The key is that of the bytes at the start of this make; the copy has to have it still.
$(ARCHIVE):
	@test -f $(call quote,$(LIB)) || { echo "no library at" $(call quote,$(LIB)) >&2; exit 1; }
	@mkdir -p $(@D)
	cp $(call quote,$(LIB)) $@
	@test "$$(cat $@ | $(HASH))" = $(LIB_KEY) || { echo "the library changed meanwhile" >&2; exit 1; }

# The objects of a program, in either kind of build.
define objects_of
$(BIN)/plain/$(1): $(OBJECTS_$(1):%.o=$(OBJ)/plain/%.o)
$(BIN)/checked/$(1): $(OBJECTS_$(1):%.o=$(OBJ)/checked/%.o)
endef
$(foreach program,$(PROGRAMS) $(EXAMPLES),$(eval $(call objects_of,$(program))))

$(PLAIN):
	@mkdir -p $(@D)
	$(CC) $(CFLAGS) $(LDFLAGS) $^ $(LDLIBS) -o $@

$(CHECKED):
	@mkdir -p $(@D)
	$(CC) $(SANITIZE) $(CFLAGS) $(LDFLAGS) $^ $(LDLIBS) -o $@

# The examples as C++; the first folder's name is the standard's.
$(CXX_EXAMPLES): $(EXAMPLES:%=%.c) include/ospreyscreen.h $(PLAIN_LIBRARY)
	@mkdir -p $(@D)
	$(CXX) -x c++ -std=$(notdir $(patsubst %/,%,$(dir $(@D)))) $(WARNINGS) -Iinclude $(CPPFLAGS) $(CXXFLAGS) \
	    $(LDFLAGS) examples/$(@F).c -x none $(PLAIN_LIBRARY) $(LDLIBS) -o $@

test-host: $(TESTS)

# The header alone, as each language that firmware is written in.
HEADER := include/ospreyscreen.h
test-header:
	$(CC) -x c -std=c99 $(WARNINGS) $(CPPFLAGS) $(CFLAGS) -fsyntax-only $(HEADER)
	$(CC) -x c -std=c11 $(WARNINGS) $(CPPFLAGS) $(CFLAGS) -fsyntax-only $(HEADER)
	$(CXX) -x c++ -std=c++17 $(WARNINGS) -Wold-style-cast $(CPPFLAGS) $(CXXFLAGS) -fsyntax-only $(HEADER)

# What the archive calls, exports and holds; without one, only that the test refuses bad ones.
test-archive: $(if $(LIB),$(ARCHIVE))
	python3 tests/host/test_archive.py $(if $(LIB),$(ARCHIVE) $(HEADER))

# What random lists meet seldom.
test-directed: build
	@echo "$@: seed $(SEED)"
	$(BIN)/plain/differential --form directed --seed $(SEED)

# Random lists in both builds, and on the optimised C as well where the library is linked.
test-calls: build
	@echo "$@: seed $(SEED)"
	$(BIN)/plain/differential --form random --calls $(CALLS) --seed $(SEED)
	$(BIN)/checked/differential --form random --calls $(CHECKED_CALLS) --seed $(SEED)
	$(if $(LIB),$(BIN)/checked/differential --form random --calls $(CHECKED_CALLS) --seed $(SEED) --of optimised)

# An entry that is no call on a table: all small cases, and random ones in both builds, on the optimised C and on its
# rival of the benchmark.
define TEST_WRITER
@echo "$@: seed $(SEED)"
$(BIN)/plain/$(1) --form directed --seed $(SEED)
$(BIN)/plain/$(1) --form random --calls $(CALLS) --seed $(SEED)
$(BIN)/checked/$(1) --form random --calls $(CHECKED_CALLS) --seed $(SEED)
$(if $(LIB),$(BIN)/checked/$(1) --form directed --seed $(SEED) --of optimised)
$(if $(LIB),$(BIN)/checked/$(1) --form random --calls $(CHECKED_CALLS) --seed $(SEED) --of optimised)
$(if $(LIB),$(BIN)/checked/$(1) --form random --calls $(CHECKED_CALLS) --seed $(SEED) --of $(2))
endef

# Votes into a configuration.
test-votes: build
	$(call TEST_WRITER,votes_trial,searched)

# Configurations into their standard form.
test-form: build
	$(call TEST_WRITER,form_trial,listed)

# Each fault in a copy of a reference, which stands in for the library; the other calls of votes are the optimised C's.
TEST_FAULTS = python3 tests/host/test_faults.py --cc $(call quote,$(CC)) \
    --cflags=$(call quote,$(C11) $(CPPFLAGS) $(CFLAGS)) --ldflags=$(call quote,$(LDFLAGS)) --out $(OBJ)/faults \
    --seeds $(call quote,$(FAULT_SEEDS)) --calls $(CALLS) --forms random,directed
FAULTY_DIFFERENTIAL := $(DIFFERENTIAL:%=$(OBJ)/plain/%)
FAULTY_VOTES := $(VOTES_TRIAL:%=$(OBJ)/plain/%) $(OBJ)/plain/standin.o
FAULTY_FORM := $(FORM_TRIAL:%=$(OBJ)/plain/%)
test-faults: $(FAULTY_DIFFERENTIAL) $(FAULTY_VOTES) $(FAULTY_FORM)
	$(TEST_FAULTS) --objects $(call quote,$(FAULTY_VOTES)) --reference ref_votes --faults faults/votes
	$(TEST_FAULTS) --objects $(call quote,$(FAULTY_FORM)) --reference reference --faults faults/form
	$(TEST_FAULTS) --objects $(call quote,$(FAULTY_DIFFERENTIAL)) --reference reference --faults faults

# Each instruction of the library with a fault in it; some faults change nothing, and survive. What has vote or
# form in its name is no part of the calls on a table alone, and has a test of its own.
TEST_MACHINE = python3 tests/host/test_machine_faults.py $(1) $(if $(LIB),$(ARCHIVE),"a library is needed") \
    --out $(BIN)/machine-faults --seed $(SEED) --calls $(CALLS) --most $(MOST_SURVIVORS) --functions $(call quote,$(2))
test-machine: $(BIN)/plain/differential $(BIN)/plain/votes_trial $(BIN)/plain/form_trial
	$(call TEST_MACHINE,$(BIN)/plain/votes_trial,vote)
	$(call TEST_MACHINE,$(BIN)/plain/form_trial,form)
	$(call TEST_MACHINE,$(BIN)/plain/differential,^(?!.*(vote|form)))

season: build
	@echo "$@: seed $(SEED)"
	$(BIN)/plain/differential --form season --calls $(CALLS) --seed $(SEED) --from $(FROM)

# The runner against the reference's runner, its input whole and cut.
FRAMES := $(BIN)/frames
test-frames: build
	@echo "$@: seed $(SEED)"
	python3 tests/host/test_runner.py $(THE_RUNNER)
	$(BIN)/plain/random_frames --lines $(FRAME_LINES) --seed $(SEED) > $(FRAMES).hex
	$(BIN)/plain/ref_runner --met < $(FRAMES).hex > $(FRAMES).expected
	$(BIN)/checked/runner < $(FRAMES).hex > $(FRAMES).got
	cmp $(FRAMES).got $(FRAMES).expected
	$(THE_RUNNER) < $(FRAMES).hex > $(FRAMES).got
	cmp $(FRAMES).got $(FRAMES).expected
	for size in 1 7 65536; do \
	    $(BIN)/plain/cuts $$size $(THE_RUNNER) < $(FRAMES).hex > $(FRAMES).got && \
	    cmp $(FRAMES).got $(FRAMES).expected || exit 1; \
	done
	rm $(FRAMES).hex $(FRAMES).expected $(FRAMES).got

test-tool: $(BIN)/plain/print_calls $(if $(RUNNER),,$(BIN)/plain/runner)
	python3 tests/host/test_frames_tool.py $< $(THE_RUNNER)
	python3 tests/host/test_stack_tool.py $(CC)

# These makefiles, in a copy of the tree.
test-make:
	python3 tests/host/test_make.py

# The program for the people at the panel: its commands, the console at a terminal, traces against the reference,
# pictures of them. INTERRUPT is what is loaded into it to cut a save off.
INTERRUPT := $(BIN)/interrupt.so
$(INTERRUPT): tests/host/interrupt.c
	@mkdir -p $(@D)
	$(CC) $(C11) -O1 -shared -fPIC -D_GNU_SOURCE $(CPPFLAGS) $(CFLAGS) $(LDFLAGS) $< $(LDLIBS) -o $@

test-program: build $(INTERRUPT)
	python3 tests/host/test_commands.py $(BIN)/checked/ospreyscreen $(THE_RUNNER)
	python3 tests/host/test_console.py $(BIN)/plain/ospreyscreen $(BIN)/checked/ospreyscreen
	python3 tests/host/test_save.py $(BIN)/plain/ospreyscreen $(INTERRUPT)
	python3 tests/host/test_advice.py $(BIN)/plain/ospreyscreen
	python3 tests/host/test_trace.py $(BIN)/checked/ospreyscreen $(BIN)/plain/ref_runner $(BIN)/plain/random_frames
	python3 tests/host/test_picture.py $(BIN)/plain/ospreyscreen

test-page: $(BIN)/plain/ospreyscreen
	python3 tests/host/test_page.py $(BIN)/plain/ospreyscreen

# What each example prints stands beside it: as C, with the sanitizers, as C++ of two standards. Two are given words.
EXAMPLE_PROGRAMS := $(EXAMPLES:%=$(BIN)/plain/%) $(EXAMPLES:%=$(BIN)/checked/%) $(CXX_EXAMPLES)
WORDS_votes := '2 1 1 1 1' 3 4
WORDS_standard_form := 3 0600070005000300060000000000000005000600030000000000000000000000 \
    0300050006000000000000000000000003000500060007000000000000000000
EXAMPLE_PRINTS = $(1) $(WORDS_$(notdir $(1))) > $(BIN)/example.out && \
    cmp $(BIN)/example.out examples/$(notdir $(1)).expected
test-example: $(EXAMPLE_PROGRAMS) $(if $(RUNNER),,$(BIN)/plain/runner)
	$(foreach program,$(EXAMPLE_PROGRAMS),$(call EXAMPLE_PRINTS,$(program)) && ) true
	python3 tests/host/test_votes_example.py $(BIN)/checked/examples/votes $(THE_RUNNER)
	python3 tests/host/test_form_example.py $(BIN)/checked/examples/standard_form

# The README's C snippet, as C and as C++.
SNIPPET := $(BIN)/snippet
test-readme: $(PLAIN_LIBRARY)
	@mkdir -p $(BIN)
	python3 tests/host/readme_snippet.py < README.md > $(SNIPPET).c
	$(CC) $(C11) $(CPPFLAGS) $(CFLAGS) $(LDFLAGS) $(SNIPPET).c $^ $(LDLIBS) -o $(SNIPPET)
	$(SNIPPET)
	$(CXX) -x c++ -std=c++17 $(WARNINGS) -Iinclude $(CPPFLAGS) $(CXXFLAGS) $(LDFLAGS) $(SNIPPET).c \
	    -x none $^ $(LDLIBS) -o $(SNIPPET)
	$(SNIPPET)

# Every session, configuration, dump and file name in the documents.
test-docs: build
	python3 tests/host/test_docs.py $(THE_RUNNER) $(BIN)/plain/format_dump $(BIN)/plain/examples/votes \
	    $(BIN)/plain/examples/standard_form $(BIN)/plain/ospreyscreen

soak: test-directed test-calls test-votes test-form test-frames

# The times stand apart from the programs, where they are found.
TIMES := build/host/bench
bench: build
	mkdir -p $(TIMES)
	for run in $(RUNS); do $(BIN)/plain/bench --samples $(SAMPLES) > $(TIMES)/bench.$$run || exit 1; done
	python3 bench/best.py $(RUNS:%=$(TIMES)/bench.%) > $(TIMES)/bench.md
	$(BIN)/plain/bench --growth --samples $(SAMPLES) > $(TIMES)/growth.csv
	python3 bench/plot.py < $(TIMES)/growth.csv > $(TIMES)/growth.svg
	$(BIN)/plain/clean_frames --stations 3 --items 1 --lines 5000000 > $(TIMES)/small.hex
	$(BIN)/plain/throughput $(TIMES)/small.hex $(THE_RUNNER) $(BIN)/plain/runner > $(TIMES)/throughput.md
	$(BIN)/plain/clean_frames --stations 16 --items 32 --lines 1000000 > $(TIMES)/large.hex
	$(BIN)/plain/throughput $(TIMES)/large.hex $(THE_RUNNER) $(BIN)/plain/runner >> $(TIMES)/throughput.md
	cat $(TIMES)/bench.md $(TIMES)/growth.csv $(TIMES)/throughput.md

clean:
	rm -rf build/host

-include $(wildcard $(foreach build,plain checked,$(foreach folder,. cli examples,$(OBJ)/$(build)/$(folder)/*.d)))
