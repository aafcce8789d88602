# The library and what is run around it. `make help` lists the targets.

CC      = gcc
CXX     = g++
CFLAGS  = -std=c99 -Wall -Wextra -Wconversion -Werror -O2
LIB     = build/libtumbeliko.a
DRILL   = build/libdrill.a
SEED    =
RUNS    =
FILE    = README.md
MINUTES = 10
PREFIX  = /usr/local

# The archive is for x86-64 Linux. Elsewhere its users are built by a cross compiler and run by an emulator
# (tests/tools.sh installs both), unless LIB names another archive.
ifneq ($(shell uname -m),x86_64)
ifeq ($(origin LIB),file)
CC      = x86_64-linux-gnu-gcc
RUN     = qemu-x86_64-static
LINK    = -static
TOOLS   = tools
endif
endif

CRATES    = crates.txt $(wildcard crates/*/src/*.rt crates/*/specs/*.antt crates/*/proofs/*.antt crates/*/proofs/*/*.antt)
REFERENCE = tests/reference/hash.c tests/reference/code.c tests/reference/board.c tests/reference/notice.c tests/reference/drill.c
HARNESS   = tests/harness.c
TREES     = tests/trees.c
STATES    = tests/states.c $(TREES)
MAIL      = tests/mail.c
NOTICES   = tests/notices.c
LINES     = tests/lines.c
LINE      = $(wildcard examples/line/*.c examples/line/*.h)
PROGRAM   = $(wildcard tools/*.c tools/*.h)
FUZZ      = fuzz/fuzz.c fuzz/drawn.c fuzz/ground.c fuzz/board.c fuzz/notice.c fuzz/drill.c
HEADERS   = include/tumbeliko.h include/drill.h tests/harness.h tests/trees.h tests/states.h tests/mail.h tests/reference/reference.h \
            tests/reference/fields.h tests/notices.h tests/lines.h bench/plain.h bench/clock.h
BUILD     = $(CC) $(CFLAGS) $(CPPFLAGS) -Iinclude -Itests $(LINK)

# Is there a header $(1), and does it link with $(2)?
have = $(shell printf '\043include <$(1)>\nint main(void) { return 0; }\n' | \
    $(CC) $(CPPFLAGS) $(LINK) $(LDFLAGS) -x c - $(2) -o /dev/null 2>/dev/null && echo yes)
KNOWN = $(if $(call have,openssl/sha.h,-lcrypto),-DHAVE_OPENSSL -lcrypto) \
        $(if $(call have,bearssl.h,-lbearssl),-DHAVE_BEARSSL -lbearssl) \
        $(if $(call have,isa-l/erasure_code.h,-lisal),-DHAVE_ISAL -lisal)

.PHONY: help test statement lib demo line-demo drill program install bench growth stack soak fuzz house clean tools
.PHONY: statement-test library-test header-test reference-test vectors-test ground-test board-test mailbox-test notice-test line-test notice-line-test drill-test
.PHONY: program-test examples-test stack-test

help:
	@echo "make test     everything: the prover's gate, then the tests in C against the library"
	@echo "make statement"
	@echo "              one page for an auditor, build/statement.html, from the specs: what is proved, every definition that it cites down to the"
	@echo "              bytes, and the count of lines to believe"
	@echo "make demo     a message cut into fragments and rebuilt; then a file spread over a line of boards while the sender fails, and"
	@echo "              again while it lies; then a notice; a picture of each run in build/. FILE=path spreads another file"
	@echo "make drill    the drill program, build/drill: a script of steps in, a line for each step out"
	@echo "make program  the program for technicians, build/tumbeliko: what a record holds, or what is wrong with it and where"
	@echo "make lib      prove the library and write build/libtumbeliko.a"
	@echo "make install  library, header, program and manual page into PREFIX=/usr/local, below DESTDIR if one is given"
	@echo "make bench    times beside plain C and known libraries, and the stack of each call"
	@echo "make growth   how the cost of a call grows with L and n: tables, and the plot docs/growth.svg"
	@echo "make stack    the stack of each call alone, beside its limit"
	@echo "make soak     whole lines of boards, of fragments and of notices, for MINUTES=10, each time with a new seed"
	@echo "make fuzz     the calls on bytes that a coverage-guided fuzzer finds, for MINUTES=10"
	@echo "make house    draw anew what stands on what among the crates, docs/house.svg"
	@echo "make clean    remove build/ and each crate's out/"
	@echo
	@echo "one part of the tests: statement-test library-test header-test reference-test vectors-test ground-test"
	@echo "                       board-test mailbox-test notice-test line-test notice-line-test drill-test program-test"
	@echo "                       examples-test stack-test"
	@echo "SEED=number   other random bytes for the tests in C"
	@echo "RUNS=number   how many runs of lines of each kind; 20,000 if not given"
	@echo "LIB=path      another archive"

test:
	@sh tests/run.sh

tools:
	@sh tests/tools.sh > /dev/null

build:
	@mkdir -p build

# It reads the specs and the contracts, and needs no prover.
statement: | build
	@command -v python3 > /dev/null || { echo "python3 is not here: it makes the page"; exit 1; }
	@python3 -B docs/statement/statement.py build/statement.html

build/libtumbeliko.a: $(CRATES) | build
	@echo "proving the library (minutes, where nothing is proved yet); the prover's words go to build/staticlib.log"
	@(cd crates/tumbeliko && rt lib) > build/staticlib.log 2>&1 || { tail -n 40 build/staticlib.log; exit 1; }
	@cp crates/tumbeliko/out/libtumbeliko.a $@

build/libdrill.a: $(CRATES) | build
	@echo "proving the drill (minutes, where nothing is proved yet); the prover's words go to build/drill-staticlib.log"
	@(cd crates/drill && rt lib) > build/drill-staticlib.log 2>&1 || { tail -n 40 build/drill-staticlib.log; exit 1; }
	@cp crates/drill/out/libdrill.a $@

lib: build/libtumbeliko.a
	@echo "the library is build/libtumbeliko.a, its header include/tumbeliko.h"

build/ground-test: tests/ground.c $(HARNESS) $(REFERENCE) $(HEADERS) $(LIB) | build $(TOOLS)
	@echo "building $@ with $(LIB)"
	@$(BUILD) tests/ground.c $(HARNESS) $(REFERENCE) $(LIB) $(LDFLAGS) -o $@

build/reference-test: tests/reference/trial.c $(MAIL) $(HARNESS) $(REFERENCE) $(HEADERS) | build $(TOOLS)
	@echo "building $@"
	@$(BUILD) tests/reference/trial.c $(MAIL) $(HARNESS) $(REFERENCE) $(LDFLAGS) -o $@

build/vectors-test: tests/vectors.c $(HARNESS) $(HEADERS) $(LIB) | build $(TOOLS)
	@echo "building $@ with $(LIB)"
	@$(BUILD) tests/vectors.c $(HARNESS) $(LIB) $(LDFLAGS) -o $@

build/board-test: tests/board.c $(STATES) $(HARNESS) $(REFERENCE) $(HEADERS) $(LIB) | build $(TOOLS)
	@echo "building $@ with $(LIB)"
	@$(BUILD) tests/board.c $(STATES) $(HARNESS) $(REFERENCE) $(LIB) $(LDFLAGS) -o $@

build/mailbox-test: tests/mailbox.c $(MAIL) $(STATES) $(HARNESS) $(REFERENCE) $(HEADERS) $(LIB) | build $(TOOLS)
	@echo "building $@ with $(LIB)"
	@$(BUILD) tests/mailbox.c $(MAIL) $(STATES) $(HARNESS) $(REFERENCE) $(LIB) $(LDFLAGS) -o $@

build/notice-test: tests/notice.c $(NOTICES) $(HARNESS) $(REFERENCE) $(HEADERS) $(LIB) | build $(TOOLS)
	@echo "building $@ with $(LIB)"
	@$(BUILD) tests/notice.c $(NOTICES) $(HARNESS) $(REFERENCE) $(LIB) $(LDFLAGS) -o $@

build/line-test: tests/line.c $(LINES) $(MAIL) $(TREES) $(HARNESS) $(REFERENCE) $(HEADERS) $(LIB) | build $(TOOLS)
	@echo "building $@ with $(LIB)"
	@$(BUILD) tests/line.c $(LINES) $(MAIL) $(TREES) $(HARNESS) $(REFERENCE) $(LIB) $(LDFLAGS) -o $@

build/notice-line-test: tests/notice-line.c $(LINES) $(HARNESS) $(REFERENCE) $(HEADERS) $(LIB) | build $(TOOLS)
	@echo "building $@ with $(LIB)"
	@$(BUILD) tests/notice-line.c $(LINES) $(HARNESS) $(REFERENCE) $(LIB) $(LDFLAGS) -o $@

build/drill-test: tests/drill.c $(TREES) $(HARNESS) $(REFERENCE) $(HEADERS) $(DRILL) | build $(TOOLS)
	@echo "building $@ with $(DRILL)"
	@$(BUILD) tests/drill.c $(TREES) $(HARNESS) $(REFERENCE) $(DRILL) $(LDFLAGS) -o $@

build/drill: examples/drill.c include/drill.h $(DRILL) | build $(TOOLS)
	@echo "building $@ with $(DRILL)"
	@$(BUILD) examples/drill.c $(DRILL) $(LDFLAGS) -o $@

build/tumbeliko: $(PROGRAM) include/tumbeliko.h $(LIB) | build $(TOOLS)
	@echo "building $@ with $(LIB)"
	@$(BUILD) $(filter %.c,$(PROGRAM)) $(LIB) $(LDFLAGS) -o $@

ifeq ($(TOOLS),)
build/bench: bench/bench.c bench/clock.c bench/plain.c $(MAIL) $(REFERENCE) $(HEADERS) $(LIB) | build
	@echo "building $@ with $(LIB), and known libraries: $(or $(filter -l%,$(KNOWN)),none)"
	@$(BUILD) $(filter -D%,$(KNOWN)) bench/bench.c bench/clock.c bench/plain.c $(MAIL) $(REFERENCE) $(LIB) $(LDFLAGS) $(filter -l%,$(KNOWN)) -o $@
else
# The emulator's times say nothing, so it counts instructions. ISA-L has no archive, so the bench is linked dynamically.
FETCHED = build/known/usr/lib/x86_64-linux-gnu

build/known/done: bench/known.sh | build tools
	@echo "fetching the known libraries for x86-64"
	@sh bench/known.sh build/known > build/known.log 2>&1 || { tail -n 20 build/known.log; exit 1; }

build/count.so: bench/count.c | build
	@gcc -O2 -Wall -Wextra -fPIC -shared -fvisibility=hidden bench/count.c -o $@

build/bench: bench/bench.c bench/clock.c bench/plain.c $(MAIL) $(REFERENCE) $(HEADERS) $(LIB) build/known/done build/count.so
	@echo "building $@ with $(LIB), OpenSSL, BearSSL and ISA-L"
	@$(CC) $(CFLAGS) $(CPPFLAGS) -Iinclude -Itests -isystem build/known/usr/include -isystem build/known/usr/include/x86_64-linux-gnu \
	    -DHAVE_OPENSSL -DHAVE_BEARSSL -DHAVE_ISAL bench/bench.c bench/clock.c bench/plain.c $(MAIL) $(REFERENCE) $(LIB) $(LDFLAGS) \
	    -L$(FETCHED) -l:libcrypto.so.3 -l:libbearssl.a -l:libisal.so.2 -o $@
endif

build/growth: bench/growth.c bench/clock.c $(HEADERS) $(LIB) | build $(TOOLS)
	@echo "building $@ with $(LIB)"
	@$(BUILD) bench/growth.c bench/clock.c $(LIB) $(LDFLAGS) -o $@

# The search runs on this machine; the library is in it where it can be, and in the replay always.
build/fuzz/find: fuzz/find.c $(FUZZ) fuzz/fuzz.h $(MAIL) $(TREES) $(REFERENCE) $(HEADERS) $(if $(TOOLS),,$(LIB) $(DRILL)) | build
	@sh fuzz/tools.sh > /dev/null
	@echo "building $@"
	@mkdir -p build/fuzz
	@clang -std=c99 -Wall -Wextra -Werror -O2 -g -fsanitize=fuzzer,address,undefined -fno-sanitize-recover=undefined \
	    $(if $(TOOLS),,-DWITH_LIBRARY) -Iinclude -Itests -Ifuzz fuzz/find.c $(FUZZ) $(MAIL) $(TREES) $(REFERENCE) \
	    $(if $(TOOLS),,$(LIB) $(DRILL)) -o $@

build/fuzz/replay: fuzz/replay.c $(FUZZ) fuzz/fuzz.h $(MAIL) $(TREES) $(REFERENCE) $(HEADERS) $(LIB) $(DRILL) | build $(TOOLS)
	@echo "building $@ with $(LIB) and $(DRILL)"
	@mkdir -p build/fuzz
	@$(BUILD) -Ifuzz -DWITH_LIBRARY fuzz/replay.c $(FUZZ) $(MAIL) $(TREES) $(REFERENCE) $(LIB) $(DRILL) $(LDFLAGS) -o $@

build/fuzz/corpus: fuzz/seeds.sh
	@sh fuzz/seeds.sh $@

# Linked statically everywhere: a loader would work on the painted stack too.
build/stack-test: tests/stack.c $(MAIL) $(TREES) $(HARNESS) $(REFERENCE) $(HEADERS) $(LIB) | build $(TOOLS)
	@echo "building $@ with $(LIB)"
	@$(BUILD) -static tests/stack.c $(MAIL) $(TREES) $(HARNESS) $(REFERENCE) $(LIB) $(LDFLAGS) -o $@

build/demo: examples/ground.c $(HEADERS) $(LIB) | build $(TOOLS)
	@echo "building $@ with $(LIB)"
	@$(BUILD) examples/ground.c $(LIB) $(LDFLAGS) -o $@

build/seven: examples/seven.c $(HEADERS) $(LIB) | build $(TOOLS)
	@echo "building $@ with $(LIB)"
	@$(BUILD) examples/seven.c $(LIB) $(LDFLAGS) -o $@

build/notice: examples/notice.c $(HEADERS) $(LIB) | build $(TOOLS)
	@echo "building $@ with $(LIB)"
	@$(BUILD) examples/notice.c $(LIB) $(LDFLAGS) -o $@

build/line-demo: $(LINE) $(HEADERS) $(LIB) | build $(TOOLS)
	@echo "building $@ with $(LIB)"
	@$(BUILD) $(filter %.c,$(LINE)) $(LIB) $(LDFLAGS) -o $@

statement-test: | build
	@sh tests/statement.sh

library-test: lib
	@nm $(LIB) 2>/dev/null | grep -q ' T tumbeliko_hash$$'
	@echo "1 passed, 0 failed"

header-test:
	@echo "the header alone, as C and as C++"
	@$(CC) $(CFLAGS) -pedantic -fsyntax-only -x c include/tumbeliko.h
	@$(CC) $(CFLAGS) -pedantic -fsyntax-only -x c include/drill.h
	@if command -v $(CXX) >/dev/null; then $(CXX) -Wall -Wextra -Wconversion -Werror -pedantic \
	    -fsyntax-only -x c++ include/tumbeliko.h include/drill.h; else echo "$(CXX) is not here: not tried as C++"; fi
	@echo "1 passed, 0 failed"

reference-test: build/reference-test
	@$(RUN) build/reference-test $(SEED)

vectors-test: build/vectors-test
	@$(RUN) build/vectors-test

ground-test: build/ground-test
	@$(RUN) build/ground-test $(SEED)

board-test: build/board-test
	@$(RUN) build/board-test $(SEED)

mailbox-test: build/mailbox-test
	@$(RUN) build/mailbox-test $(SEED)

notice-test: build/notice-test
	@$(RUN) build/notice-test $(SEED)

line-test: build/line-test
	@$(RUN) build/line-test $(or $(RUNS),20000) $(SEED)

notice-line-test: build/notice-line-test
	@$(RUN) build/notice-line-test $(or $(RUNS),20000) $(SEED)

drill-test: build/drill-test build/drill
	@printf '1 0 1 16\n0\n1 41\n3\ns 1 1\ne 1 1\nv 1 1\n' | $(RUN) build/drill > build/drill.log
	@printf 'step kind from to answer act outcome\n1 s 1 1 0 e -\n2 e 1 1 0 v -\n3 v 1 1 0 - m41\n' | cmp - build/drill.log
	@$(RUN) build/drill-test $(SEED)

program-test: build/tumbeliko
	@$(MAKE) --no-print-directory install DESTDIR="$(CURDIR)/build/installed" PREFIX=/usr
	@RUN="$(RUN)" LIB="$(LIB)" sh tests/program.sh

examples-test: build/demo build/seven build/notice build/line-demo
	@RUN="$(RUN)" sh tests/examples.sh

# A new seed each time; stops at the first failure, and says which seed it was.
soak: build/line-test build/notice-line-test
	@RUN="$(RUN)" sh tests/soak.sh $(MINUTES) $(or $(RUNS),20000) $(SEED)

# Outside the gate. Found inputs stay in build/fuzz/corpus.
fuzz: build/fuzz/find build/fuzz/replay | build/fuzz/corpus
	@RUN="$(RUN)" sh fuzz/run.sh $(MINUTES) $(SEED)

ifeq ($(TOOLS),)
bench: build/bench stack
	@echo "times, the best of many"
	@build/bench
else
bench: build/bench stack
	@echo "no x86-64 here: instructions executed, counted by the emulator"
	@COUNT_FILE=build/counts qemu-x86_64 -cpu max -L /usr/x86_64-linux-gnu -E LD_LIBRARY_PATH=$(FETCHED) \
	    -plugin build/count.so,to=build/counts build/bench
endif

# Writes the tables to standard output, and the plot.
ifeq ($(TOOLS),)
growth: build/growth
	@build/growth docs/growth.svg
else
growth: build/growth build/count.so build/known/done
	@COUNT_FILE=build/counts qemu-x86_64 -plugin build/count.so,to=build/counts build/growth docs/growth.svg
endif

stack: build/stack-test
	@echo "stack of each call, painted"
	@$(RUN) build/stack-test

stack-test: build/stack-test
	@$(RUN) build/stack-test

# Fails where crates.txt names a crate that is not cited, or lacks one that is.
house: | build
	@python3 docs/house.py > build/house.dot
	@command -v dot > /dev/null || { echo "dot is not here: install graphviz to draw"; exit 1; }
	@dot -Tsvg build/house.dot -o docs/house.svg
	@echo "the crates are drawn in docs/house.svg"

drill: build/drill
	@echo "the drill program is build/drill: it reads a drill from standard input$(if $(RUN), (run it by $(RUN)))"

program: build/tumbeliko
	@echo "the program is build/tumbeliko$(if $(RUN), (run it by $(RUN))), its manual page tools/tumbeliko.1"

install: build/tumbeliko
	@mkdir -p "$(DESTDIR)$(PREFIX)/bin" "$(DESTDIR)$(PREFIX)/lib" "$(DESTDIR)$(PREFIX)/include" "$(DESTDIR)$(PREFIX)/share/man/man1"
	@install -m 755 build/tumbeliko "$(DESTDIR)$(PREFIX)/bin/tumbeliko"
	@install -m 644 $(LIB) "$(DESTDIR)$(PREFIX)/lib/libtumbeliko.a"
	@install -m 644 include/tumbeliko.h "$(DESTDIR)$(PREFIX)/include/tumbeliko.h"
	@install -m 644 tools/tumbeliko.1 "$(DESTDIR)$(PREFIX)/share/man/man1/tumbeliko.1"
	@echo "library, header, program and manual page are in $(DESTDIR)$(PREFIX)"

demo: build/demo build/line-demo
	@$(RUN) build/demo
	@echo
	@$(MAKE) --no-print-directory line-demo

# The seeds are ones with a story: boards that get no send deliver the file all the same; a sender's lie becomes void everywhere.
line-demo: build/line-demo
	@echo "== the sender fails halfway, and board 4 lies"
	@$(RUN) build/line-demo --seed $(or $(SEED),10) --breaks 1:fails,4:lies --picture build/line-1.svg $(FILE)
	@echo
	@echo "== the sender sends fragments of no block, and board 4 lies"
	@$(RUN) build/line-demo --seed $(or $(SEED),1) --breaks 1:garbles,4:lies --picture build/line-2.svg $(FILE)
	@echo
	@echo "== a notice, which a sender that lies tells in two ways, and board 4 lies"
	@$(RUN) build/line-demo --seed $(or $(SEED),15) --breaks 1:splits,4:lies --picture build/line-3.svg --notice "shelf door open"
	@echo
	@echo "pictures of the three runs, for a browser: build/line-1.svg, build/line-2.svg and build/line-3.svg"

clean:
	@rm -rf build crates/*/out
	@echo "build/ and each crate's out/ are gone"
