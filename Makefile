# The C library, its example and tests, and the comparisons with it. `make help` lists the targets.
# rt proves a crate and builds it in the crate's out/; the libraries are copied from there to target/staticlib.
# Everything else is built under target/host.
VERSION := 0.1.0
PREFIX ?= /usr/local
SECONDS := 60
CALLS := 100000000
PLOT = $(OUT)/bench.svg
WARN := -std=c99 -pedantic -Wall -Wextra -Werror
SANITIZE := -fsanitize=address,undefined -fno-sanitize-recover=all
OUT := target/host
CARGO = CARGO_TARGET_DIR="$(CURDIR)/$(OUT)/rust" Z2Z4_LIB_DIR="$(CURDIR)/$(OUT)/lib" cargo
MANIFEST := --offline --release --manifest-path host/rust/Cargo.toml
# $(call need,TOOL,TARGET) ends with one clear line where the tool is missing
need = @command -v $(1) >/dev/null || { echo "make $(2) needs $(1) on the PATH" >&2; exit 2; }

.PHONY: all library example check check-c check-rust check-cases check-sheet expected compare fuzz bench bench-passes bench-steps install uninstall clean help FORCE
all: library example

# $(call renew,FILE) copies a file to the target where the two differ
renew = @mkdir -p $(@D); cmp -s $(1) $@ || cp $(1) $@
# $(call archive,CRATE) has rt prove a static library, and takes what it built
define archive
cd crates/$(1) && rt lib
$(call renew,crates/$(1)/out/lib$(1).a)
endef

# `make LIBRARY=path/to/libz2z4.a ..` takes a library that is there already: nothing is proved, and rt is not needed;
# the Rust tests and the benchmarks need libtimed.a and libsteps.a too, which TIMED=path/to/libtimed.a and
# STEPS=path/to/libsteps.a give them.
ifeq ($(origin LIBRARY),command line)
$(LIBRARY):
	@echo "there is no library $@" >&2; exit 2
else
LIBRARY := target/staticlib/libz2z4.a
# always asked: rt knows which crates have changed
$(LIBRARY): FORCE
	$(call need,rt,library)
	$(call archive,z2z4_c)
endif
library: $(LIBRARY)

# the two corrections that bench-passes times and the three calls that bench-steps does, after the library and one
# after the other, so that rt proves one thing at a time
ifeq ($(origin TIMED),command line)
$(TIMED):
	@echo "there is no library $@" >&2; exit 2
else
TIMED := target/staticlib/libtimed.a
$(TIMED): FORCE | $(LIBRARY)
	$(call need,rt,bench-passes)
	$(call archive,timed)
endif
ifeq ($(origin STEPS),command line)
$(STEPS):
	@echo "there is no library $@" >&2; exit 2
else
STEPS := target/staticlib/libsteps.a
$(STEPS): FORCE | $(LIBRARY) $(TIMED)
	$(call need,rt,bench-steps)
	$(call archive,steps)
endif

# the programs that check-cases and check-sheet try; CASES=path and SHEET=path take programs that are there already.
# rt also runs what it has built, here on no input, which each ends with success.
ifeq ($(origin CASES),command line)
$(CASES):
	@echo "there is no program $@" >&2; exit 2
else
CASES := crates/cases/out/cases
$(CASES): FORCE
	$(call need,rt,check-cases)
	cd crates/cases && rt run </dev/null >&2
endif
ifeq ($(origin SHEET),command line)
$(SHEET):
	@echo "there is no program $@" >&2; exit 2
else
SHEET := crates/sheet/out/sheet
$(SHEET): FORCE
	$(call need,rt,check-sheet)
	cd crates/sheet && rt run </dev/null >&2
endif

# what the tests link: copies that are renewed where a library differs, so that none runs with another one
LINKED := $(OUT)/lib/libz2z4.a
LINKED_TIMED := $(OUT)/lib/libtimed.a
LINKED_STEPS := $(OUT)/lib/libsteps.a
$(LINKED): $(LIBRARY) FORCE
	$(call renew,$(LIBRARY))
$(LINKED_TIMED): $(TIMED) FORCE
	$(call renew,$(TIMED))
$(LINKED_STEPS): $(STEPS) FORCE
	$(call renew,$(STEPS))

help:
	@echo "library         prove the crates and write target/staticlib/libz2z4.a (LIBRARY=path: take that one instead)"
	@echo "example         build target/host/example"
	@echo "check           the C tests (check-c) and the Rust tests (check-rust)"
	@echo "check-cases     prove and build the program cases: it and the second program have to refuse each line of host/malformed"
	@echo "check-sheet     prove and build the program sheet: on every code and on lines good and bad it has to print what the second program does"
	@echo "expected        write crates/larger/stdout and crates/cases/stdout by the second program"
	@echo "compare         compare with the second program, CALLS=$(CALLS)"
	@echo "fuzz            fuzz against the second program for SECONDS=$(SECONDS)"
	@echo "bench           time the library, the second program and the program by tables; the plot goes to PLOT=$(PLOT)"
	@echo "bench-passes    compare and time correction and the call as it was before request C-14"
	@echo "bench-steps     compare and time correction and its two steps, asking and committing (request C-20)"
	@echo "install         to PREFIX=$(PREFIX), under DESTDIR; uninstall takes it away"
	@echo "clean           remove target/host"

$(OUT):
	mkdir -p $@

example: $(OUT)/example
$(OUT)/example: host/c/example.c include/z2z4.h $(LINKED) | $(OUT)
	$(call need,$(CC),example)
	$(CC) $(WARN) -O2 -Iinclude $< $(LINKED) -o $@

# the program by tables, optimized as it is timed
$(OUT)/table.o: host/c/table.c host/c/table.h include/z2z4.h | $(OUT)
	$(call need,$(CC),check)
	$(CC) $(WARN) -O3 -Iinclude -c $< -o $@

$(OUT)/%_test: host/c/%_test.c host/c/testing.h host/c/table.h include/z2z4.h $(OUT)/table.o $(LINKED)
	$(CC) $(WARN) -O1 -g -Iinclude $< $(OUT)/table.o $(LINKED) -o $@

check: check-c check-rust

# calls_test runs with the sanitizers and under valgrind; one of the two may be missing, and is then named.
check-c: $(OUT)/example $(OUT)/calls_test $(OUT)/table_test $(OUT)/long_test $(OUT)/stack_test
	$(call need,$(CXX),check)
	$(call need,nm,check)
	$(CC) $(WARN) -fsyntax-only include/z2z4.h
	$(CC) $(WARN) -std=c11 -fsyntax-only include/z2z4.h
	$(CXX) -pedantic -Wall -Wextra -Werror -fsyntax-only -x c++ include/z2z4.h
	$(OUT)/example | diff host/c/example.out -
	nm -u $(LINKED) | awk '$$1 == "U" && $$2 != "memcpy" && $$2 != "memset" { print "the library needs " $$2; n = 1 } END { exit n }'
	sed -n '/^    #include <stdio.h>/,/^    }/s/^    //p' README.md >$(OUT)/try.c
	$(CC) $(WARN) -Iinclude $(OUT)/try.c $(LINKED) -o $(OUT)/try
	$(OUT)/try | diff host/c/try.out -
	$(OUT)/table_test
	$(OUT)/long_test
	$(OUT)/stack_test
	@set -e; ran=no; \
	if echo 'int main(void) { return 0; }' | $(CC) $(SANITIZE) -x c - -o $(OUT)/probe 2>$(OUT)/probe.log; then \
	    echo "calls_test with the sanitizers"; ran=yes; \
	    $(CC) $(WARN) $(SANITIZE) -O1 -g -Iinclude host/c/calls_test.c $(LINKED) -o $(OUT)/sanitized; $(OUT)/sanitized; \
	else echo "check: $(CC) has no sanitizers, that run is left out"; fi; \
	if command -v valgrind >/dev/null; then \
	    echo "calls_test under valgrind"; ran=yes; valgrind --error-exitcode=1 -q $(OUT)/calls_test; \
	else echo "check: no valgrind on the PATH, that run is left out"; fi; \
	test $$ran = yes || { echo "make check needs valgrind or the sanitizers of $(CC)" >&2; exit 2; }

# the benchmarks, which are tested too, have copies of the libraries, and objcopy (binutils) names their calls
check-rust: $(LINKED) $(LINKED_TIMED) $(LINKED_STEPS)
	$(call need,cargo,check)
	$(call need,objcopy,check)
	+$(CARGO) test $(MANIFEST)

# none of these lines is a call; cases stops at the first, so each is given alone
check-cases: $(CASES) | $(OUT)
	$(call need,cargo,check-cases)
	+$(CARGO) build $(MANIFEST) -p second --bin cases
	@while IFS= read -r line; do for program in $(CASES) $(OUT)/rust/release/cases; do \
	    printf '%s\n' "$$line" | $$program | grep -Fqx -- "$$line: line 1 is malformed" || \
	        { echo "not malformed, says $$program: $$line" >&2; exit 1; }; \
	done; done <host/malformed

check-sheet: $(SHEET) | $(OUT)
	$(call need,cargo,check-sheet)
	+$(CARGO) run $(MANIFEST) -p second --bin check_sheet -- $(SHEET)

# what the programs larger and cases have to print
expected: | $(OUT)
	$(call need,cargo,expected)
	+$(CARGO) run $(MANIFEST) -p second --bin expected >$(OUT)/expected
	mv $(OUT)/expected crates/larger/stdout
	+$(CARGO) run $(MANIFEST) -p second --bin cases <crates/cases/stdin >$(OUT)/expected
	mv $(OUT)/expected crates/cases/stdout

compare: $(LINKED)
	$(call need,cargo,compare)
	+$(CARGO) run $(MANIFEST) -p compare -- --calls $(CALLS)

# one crate has all three benchmarks, so its build asks for every library
bench bench-passes bench-steps: $(LINKED) $(LINKED_TIMED) $(LINKED_STEPS)
	$(call need,cargo,$@)
	$(call need,$(CC),$@)
	$(call need,objcopy,$@)
	+$(CARGO) run $(MANIFEST) -p bench $(BENCH)
bench: BENCH = --bin bench -- --plot "$(PLOT)"
bench-passes: BENCH = --bin passes
bench-steps: BENCH = --bin steps

# libFuzzer is guided by the branches of the second program, which is built for it with counters of them; 1,100 bytes
# give each place of two words of 4,095 places, and some more
COUNTERS := -Cpasses=sancov-module -Cllvm-args=-sanitizer-coverage-level=3 \
    -Cllvm-args=-sanitizer-coverage-inline-8bit-counters -Cllvm-args=-sanitizer-coverage-pc-table
fuzz: $(LINKED)
	$(call need,cargo,fuzz)
	$(call need,clang,fuzz)
	@echo 'int LLVMFuzzerTestOneInput(void); int LLVMFuzzerTestOneInput(void) { return 0; }' | \
	    clang -fsanitize=fuzzer,address,undefined -x c - -o $(OUT)/probe 2>$(OUT)/probe.log || \
	    { echo "make fuzz needs a clang with libFuzzer and the sanitizers' runtime" >&2; exit 2; }
	+RUSTFLAGS="$(COUNTERS)" CARGO_TARGET_DIR="$(CURDIR)/$(OUT)/fuzz" cargo build $(MANIFEST) -p second_c
	clang $(WARN) -O1 -g -fsanitize=fuzzer,address,undefined -Iinclude host/c/fuzz.c $(LINKED) \
	    $(OUT)/fuzz/release/libsecond_c.a -o $(OUT)/fuzz/calls
	mkdir -p $(OUT)/fuzz/corpus
	$(OUT)/fuzz/calls -max_total_time=$(SECONDS) -max_len=1100 -timeout=10 -artifact_prefix=$(OUT)/fuzz/ $(OUT)/fuzz/corpus

TO = $(DESTDIR)$(PREFIX)
install: library | $(OUT)
	@case "$(PREFIX)" in /*) ;; *) echo "make install needs a PREFIX that begins with /" >&2; exit 2 ;; esac
	sed 's|@PREFIX@|$(PREFIX)|; s|@VERSION@|$(VERSION)|' host/z2z4.pc.in >$(OUT)/z2z4.pc
	install -d "$(TO)/include" "$(TO)/lib/pkgconfig"
	install -m 644 include/z2z4.h "$(TO)/include/z2z4.h"
	install -m 644 $(LIBRARY) "$(TO)/lib/libz2z4.a"
	install -m 644 $(OUT)/z2z4.pc "$(TO)/lib/pkgconfig/z2z4.pc"

uninstall:
	rm -f "$(TO)/include/z2z4.h" "$(TO)/lib/libz2z4.a" "$(TO)/lib/pkgconfig/z2z4.pc"

clean:
	rm -rf $(OUT)

FORCE:
