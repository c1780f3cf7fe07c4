# Ospreyscreen.
#
#   make lib          build/libospreyscreen.a and build/ospreyscreen.h, proved; so does make alone
#   make run          the frame runner on examples/first-reading.hex, each reply beside its meaning
#                     (SCRIPT=file for another file of frames)
#   make tool         build/ospreyscreen, the program for the people at the panel (--help lists its commands)
#   make tool-votes   the sheet of make votes, by the program
#   make tool-form    the two sheets of make standard-form, by the program
#   make picture      build/picture.html, a picture of the session in examples/tray.txt (WORDS=file for another)
#   make example      builds examples/first_reading.c and examples/season.c with the library and runs them
#   make votes        an installer's sheet as a configuration (VOTES="2 1 1 1 1" READ=3 WRITE=4 for another)
#   make standard-form  two sheets compared by their standard forms (N=3, ONE and OTHER of 64 digits for others)
#   make stack        the library's largest stack frame and its deepest chain of calls
#   make install      the library, the header and a pkg-config file, below PREFIX (and DESTDIR)
#   make uninstall    removes these three files
#   make install-tool  the program with its manual page, below PREFIX (and DESTDIR)
#   make uninstall-tool  removes these two files
#   make test         the gate (.ci/run), then test-host, then test-faults
#   make test-host    the library, the runner and the program against an independent implementation, short
#   make test-page    the picture of a session in a browser; needs chromium and chromium-driver
#   make test-faults  the tests of calls against planted faults, each of which they have to find
#   make test-machine the same with faults planted in the library's machine code
#   make soak         10 million calls, sheets, spellings and frame lines each, from a new seed each time
#   make season       seasons of one house, 10^9 calls in a night (SEED and FROM to go on where one ended)
#   make bench        times beside an optimised C implementation
#   make clean        removes what was made
#   make help         this list
#
# CC, CFLAGS, LDFLAGS and LDLIBS build the program and the examples; they and SEED, FROM, CALLS, FRAME_LINES and
# SAMPLES go on to tests/host/host.mk, on the command line or in the environment.

PREFIX ?= /usr/local
DESTDIR ?=
# From the command line alone: some systems export a SCRIPT of their own, or a READ.
SCRIPT := examples/first-reading.hex
WORDS := examples/tray.txt
VOTES := 2 1 1 1 1
READ := 3
WRITE := 4
N := 3
ONE := 0600070005000300060000000000000005000600030000000000000000000000
OTHER := 0300050006000000000000000000000003000500060007000000000000000000
# The header has the version; here it is put together for pkg-config.
VERSION := $(shell awk '$$2 ~ /^OSPREYSCREEN_VERSION_(MAJOR|MINOR|PATCH)$$/ { printf dot $$3; dot = "." }' \
    include/ospreyscreen.h)

LIB := build/libospreyscreen.a
HEADER := build/ospreyscreen.h
RUNNER := build/frame_runner
TOOL := build/ospreyscreen
EXAMPLES := build/first_reading build/season
VOTES_EXAMPLE := build/votes
FORM_EXAMPLE := build/standard_form
HOST_TESTS := test-host test-page test-faults test-machine soak season bench
SOURCES := crates.txt $(shell find crates -name out -prune -o \( -name '*.rt' -o -name '*.antt' \) -print)

# A text as one word of the shell.
quote = '$(subst ','\'',$(1))'

# rt works in the out/ folders of the crates. So one make runs one recipe at a time (the host tests' own
# make may run several), and all makes of this tree wait for one lock.
LOCK := build/rt.lock
.NOTPARALLEL:
.DELETE_ON_ERROR:
.PHONY: lib run tool tool-votes tool-form picture example votes standard-form stack install uninstall install-tool \
    uninstall-tool test $(HOST_TESTS) clean help $(TOOL) $(EXAMPLES) $(VOTES_EXAMPLE) $(FORM_EXAMPLE)

lib: $(LIB) $(HEADER)

# rt leaves the archive and the runner only where every function is proved. It runs what it builds, here on no input.
# Both are for every x86-64, with no instruction beyond SSE2.
CPU := --cpu=x86-64
$(LIB): $(SOURCES)
	mkdir -p build
	flock $(LOCK) sh -c '(cd crates/ospreyscreen_c && rt lib $(CPU)) && cp crates/ospreyscreen_c/out/libospreyscreen_c.a $@'

$(RUNNER): $(SOURCES)
	mkdir -p build
	flock $(LOCK) sh -c '(cd crates/frame_runner && rt run $(CPU) < /dev/null) && cp crates/frame_runner/out/frame_runner $@'

$(HEADER): include/ospreyscreen.h
	mkdir -p build
	cp $< $@

# The pipe's status is that of its last command; the runner's own is asked after it.
run: $(RUNNER)
	rm -f build/run.status
	{ $(RUNNER) < $(call quote,$(SCRIPT)); echo $$? > build/run.status; } | tools/frames decode --beside
	@status=$$(cat build/run.status) && exit $$status

# Small enough to be built each time, with the compiler and the flags of this time.
COMPILE = $(CC) -std=c11 -Wall -Wextra -Ibuild
$(EXAMPLES) $(VOTES_EXAMPLE) $(FORM_EXAMPLE): build/%: examples/%.c $(LIB) $(HEADER)
	$(COMPILE) $(CPPFLAGS) $(CFLAGS) $(LDFLAGS) $< $(LIB) $(LDLIBS) -o $@

$(TOOL): $(wildcard cli/*.c cli/*.h) $(LIB) $(HEADER)
	$(COMPILE) -O2 -D_XOPEN_SOURCE=700 -D_DEFAULT_SOURCE $(CPPFLAGS) $(CFLAGS) $(LDFLAGS) \
	    $(filter %.c,$^) $(LIB) $(LDLIBS) -o $@

tool: $(TOOL)

picture: $(TOOL)
	tools/frames encode --stop < $(call quote,$(WORDS)) > build/picture.hex
	$(TOOL) trace < build/picture.hex > build/picture.json
	tools/picture build/picture.json > build/picture.html

example: $(EXAMPLES)
	build/first_reading
	build/season

votes: $(VOTES_EXAMPLE)
	@$(VOTES_EXAMPLE) $(call quote,$(VOTES)) $(call quote,$(READ)) $(call quote,$(WRITE))

standard-form: $(FORM_EXAMPLE)
	@$(FORM_EXAMPLE) $(call quote,$(N)) $(call quote,$(ONE)) $(call quote,$(OTHER))

tool-votes: $(TOOL)
	@$(TOOL) votes $(call quote,$(VOTES)) read $(call quote,$(READ)) write $(call quote,$(WRITE))

tool-form: $(TOOL)
	@$(TOOL) form $(call quote,$(N)) $(call quote,$(ONE)) $(call quote,$(OTHER))

stack: $(LIB)
	tools/stack $(LIB)

ROOT = $(DESTDIR)$(PREFIX)
INSTALLED_TOOL = $(call quote,$(ROOT)/bin/ospreyscreen)
INSTALLED_PAGE = $(call quote,$(ROOT)/share/man/man1/ospreyscreen.1)
INSTALLED_LIB = $(call quote,$(ROOT)/lib/libospreyscreen.a)
INSTALLED_HEADER = $(call quote,$(ROOT)/include/ospreyscreen.h)
INSTALLED_PC = $(call quote,$(ROOT)/lib/pkgconfig/ospreyscreen.pc)

# pkg-config wants a backslash before a space or a backslash, sed before what it gives a meaning.
empty :=
space := $(empty) $(empty)
PC_PREFIX = $(subst $(space),\$(space),$(subst \,\\,$(PREFIX)))
SED_PREFIX = $(subst |,\|,$(subst &,\&,$(subst \,\\,$(PC_PREFIX))))

install: lib
	sed -e $(call quote,s|@PREFIX@|$(SED_PREFIX)|) -e 's|@VERSION@|$(VERSION)|' ospreyscreen.pc.in \
	    > build/ospreyscreen.pc
	install -d $(call quote,$(ROOT)/lib/pkgconfig) $(call quote,$(ROOT)/include)
	install -m 644 $(LIB) $(INSTALLED_LIB)
	install -m 644 $(HEADER) $(INSTALLED_HEADER)
	install -m 644 build/ospreyscreen.pc $(INSTALLED_PC)

# The folders stay: others may have files there.
uninstall:
	rm -f $(INSTALLED_LIB) $(INSTALLED_HEADER) $(INSTALLED_PC)

install-tool: tool
	sed -e 's|@VERSION@|$(VERSION)|' cli/ospreyscreen.1.in > build/ospreyscreen.1
	install -d $(call quote,$(ROOT)/bin) $(call quote,$(ROOT)/share/man/man1)
	install -m 755 $(TOOL) $(INSTALLED_TOOL)
	install -m 644 build/ospreyscreen.1 $(INSTALLED_PAGE)

uninstall-tool:
	rm -f $(INSTALLED_TOOL) $(INSTALLED_PAGE)

test:
	mkdir -p build
	flock $(LOCK) .ci/run
	$(MAKE) test-host
	$(MAKE) test-faults

$(HOST_TESTS): $(LIB) $(RUNNER)
	$(MAKE) -f tests/host/host.mk LIB=$(LIB) RUNNER=$(RUNNER) $@

# The lock stays: another make may wait for it.
clean:
	mkdir -p build
	flock $(LOCK) sh -c 'rm -rf crates/*/out && find build -mindepth 1 ! -path $(LOCK) -delete'

help:
	@sed -n 's/^#   //p' Makefile
