# What `make help` prints: these lines, up to the first that is no comment.
#
# make run      answers the lines of examples/sections.tsv with the program los; so does make alone
# make test     proves everything and tries every must-fail edit (rt ci), then tests the library and the program that were proved
# make test-X   one of its tests, over what is built: tables, map, references, promises, forms, names, calls, widening, yearly, stream,
#               compare, compare-los, published
# make full     compares every curve of clear weather, every float and every multilane speed with the second implementation, and finds
#               where, in snow and rain, the speed falls as the free-flow speed rises
# make map      writes docs/MAP.md anew, from the rules of docs/METHOD.md and the comments that name them
# make tables   writes the constant tables anew
# make vectors  writes anew what the lines, lanes questions and surveys of the tests are to be answered, as the second implementation has it
# make fmt      lays out every source file: Rattle, Rust and C
# make bench    times los and the calls against plain C on a million made lines; RUNS=n sets how often, BEFORE=path adds another los
# make clean    removes what the others built
# make help     prints these lines
SHELL = /bin/bash
.SHELLFLAGS = -o pipefail -c
BUILD = build
# A rule that names no make hands no jobserver on, and rustc would ask for it.
RUSTC = env -u MAKEFLAGS -u MFLAGS rustc --edition 2021 -O
CFLAGS = -std=c11 -Wall -Wextra -Werror -O2
SOURCES = $(shell find crates -name out -prune -o \( -name "*.rt" -o -name "*.antt" \) -print) crates.txt
LIBRARY = target/staticlib/libmarehour.a
PROGRAM = target/bin/los
TESTS = tables map references promises forms names calls widening yearly stream compare compare-los published

# Plain C is compiled by gcc, and by clang too where it is installed.
BENCH = $(BUILD)/bench
PLAIN = $(patsubst %,$(BENCH)/plain-%,gcc $(if $(shell command -v clang),clang))
PLAINFLAGS = -std=c11 -Wall -Wextra -Werror -O3 -I$(BENCH)
TABLES = $(BENCH)/powers.inc $(BENCH)/ramps.inc

.PHONY: run help test prove library tests $(TESTS:%=test-%) full map tables vectors fmt bench clean

run: $(PROGRAM)
	@$(PROGRAM) < examples/sections.tsv

help:
	@sed -n '1,2d; /^#/!q; s/^# //p' $(firstword $(MAKEFILE_LIST))

# The last line is the verdict of rt ci, shown only where every test has passed too. The library is built beside rt ci; the program is the one
# that rt ci proved and built.
test:
	@$(MAKE) --no-print-directory -j2 prove library
	@cp crates/los/out/los $(PROGRAM)
	@$(MAKE) --no-print-directory -j$(shell nproc) --output-sync tests
	@tail -n 1 $(BUILD)/ci.log

# What rt ci prints is shown as it comes, all but the last line, which is shown here where rt ci fails. rt ci passes where an edit can't be
# applied or read, and tells it as ", N bad" on its line rt: ok; that fails here.
prove:
	@mkdir -p $(BUILD) $(dir $(PROGRAM))
	rt ci 2>&1 | tee $(BUILD)/ci.log | sed -u '$$d' || { tail -n 1 $(BUILD)/ci.log; exit 1; }
	@! grep -E '^rt: ok.*, [0-9]+ bad' $(BUILD)/ci.log || { echo "an edit is bad"; exit 1; }

# In a copy of the crates, since rt ci sets aside what other commands leave in crates/*/out.
library:
	@mkdir -p $(BUILD) $(dir $(LIBRARY))
	@room=$$(mktemp -d) && trap 'rm -rf '"$$room" EXIT && tar -c --exclude=out crates crates.txt | tar -x -C $$room \
	&& cd $$room/crates/marehour && rt lib < /dev/null > $(CURDIR)/$(BUILD)/rt-marehour.log 2>&1 || { cat $(CURDIR)/$(BUILD)/rt-marehour.log; exit 1; }; \
	cp $$room/crates/marehour/out/libmarehour.a $(CURDIR)/$(LIBRARY)

# Each test builds what it runs; make test has them side by side.
tests: $(TESTS:%=test-%)

test-tables test-map: test-%: $(BUILD)/%
	$< check

test-references test-promises test-forms: test-%: $(BUILD)/%
	$<

# The archive exports the calls that the header declares and no other name, and needs none from outside.
test-names: $(LIBRARY) include/marehour.h
	@diff <(sed -n 's/^int32_t \(marehour_[a-z_]*\)(.*/\1/p' include/marehour.h | sort) <(nm -g --defined-only $< | awk 'NF == 3 { print $$3 }' | sort) \
	|| { echo "names: left is what the header declares, right what the archive exports"; exit 1; }
	@! nm -u $< | grep ' U ' || { echo "names: the archive needs these from outside"; exit 1; }

test-calls: $(BUILD)/calls
	$<

test-widening test-yearly: test-%: $(BUILD)/%-test $(BUILD)/%
	$^

test-stream: $(BUILD)/stream $(PROGRAM)
	$^

test-compare: $(BUILD)/compare
	$< quick

test-compare-los: $(BUILD)/compare $(PROGRAM)
	$< los $(PROGRAM)

test-published: $(BUILD)/published $(PROGRAM)
	$^

full: $(BUILD)/compare
	$(BUILD)/compare full-curves
	$(BUILD)/compare full-floats
	$(BUILD)/compare full-distances
	$(BUILD)/compare full-weather

tables map: %: $(BUILD)/%
	$< write

vectors: $(BUILD)/compare
	$(BUILD)/compare write-vectors

# Proves a crate, over what earlier checks kept, builds it, and puts what it built where it belongs: COMMAND CRATE FILE. Each crate below it
# that is still to be proved is told.
define rt
@mkdir -p $(BUILD) $(dir $@)
@echo "rt $(1) $(2): proves what is new of it and of the crates below, from nothing in some minutes" >&2
@cd crates/$(2) && rt $(1) < /dev/null 2>&1 | tee ../../$(BUILD)/rt-$(2).log | sed -un 's/^rt: chose --jobs [0-9]* for /  proving /p' >&2 \
|| { cat ../../$(BUILD)/rt-$(2).log; exit 1; }
@cp crates/$(2)/out/$(3) $@
endef

# rt run proves and builds the program, and answers an input without lines.
$(PROGRAM): $(SOURCES)
	$(call rt,run,los,los)

$(LIBRARY): $(SOURCES)
	$(call rt,lib,marehour,libmarehour.a)

$(BUILD)/calls: tests/calls.c tests/overrun.c tests/calls.h include/marehour.h $(LIBRARY)
	@mkdir -p $(BUILD)
	$(CC) $(CFLAGS) -Iinclude -o $@ $(filter %.c %.a,$^)

$(BUILD)/widening $(BUILD)/yearly: $(BUILD)/%: examples/%.c examples/host.c examples/host.h include/marehour.h $(LIBRARY)
	@mkdir -p $(BUILD)
	$(CC) $(CFLAGS) -Iinclude -o $@ $(filter %.c %.a,$^)

$(BUILD)/compare: tests/compare.rs $(wildcard tests/compare/*.rs tests/second/*.rs) $(LIBRARY)
	@mkdir -p $(BUILD)
	$(RUSTC) -o $@ $< -L $(dir $(LIBRARY)) -l static=marehour

$(BUILD)/%-test: tests/%.rs tests/host.rs $(wildcard tests/second/*.rs)
	@mkdir -p $(BUILD)
	$(RUSTC) -o $@ $<

$(BUILD)/%: tests/%.rs
	@mkdir -p $(BUILD)
	$(RUSTC) -o $@ $<

$(BUILD)/%: tools/%.rs $(wildcard tools/tree/*.rs)
	@mkdir -p $(BUILD)
	$(RUSTC) -o $@ $<

# Each language where its tool is installed; fails at the end where one is not, or where a tool fails.
fmt:
	@failed=0; \
	has() { command -v $$1 > /dev/null || { echo "fmt: $$1 is not installed: $$2 stays as it is"; failed=1; false; }; }; \
	if has rt crates; then for crate in crates/*/; do (cd $$crate && rt fmt < /dev/null) || failed=1; done; fi; \
	if has rustfmt "Rust of tests and tools"; then git ls-files -z 'tests/*.rs' 'tools/*.rs' | xargs -0 rustfmt || failed=1; fi; \
	if has clang-format "C of tests, examples, bench and include"; then \
	git ls-files -z {tests,examples,bench,include}/'*.'{c,h} | xargs -0 clang-format -i || failed=1; fi; \
	exit $$failed

bench: $(PROGRAM) $(PLAIN) $(BENCH)/race $(BENCH)/calls $(BENCH)/days $(BENCH)/lines.tsv
	@bench/run.sh $(BENCH) $(PROGRAM) $(PLAIN)

$(BENCH)/plain-%: bench/plain.c bench/section.c bench/section.h $(TABLES)
	$* $(PLAINFLAGS) -o $@ $(filter %.c,$^)

$(BENCH)/calls $(BENCH)/days: $(BENCH)/%: bench/%.c bench/lines.c bench/lines.h bench/section.c bench/section.h include/marehour.h $(TABLES) $(LIBRARY)
	gcc $(PLAINFLAGS) -Iinclude -o $@ $(filter %.c %.a,$^)

$(BENCH)/lines.tsv: $(BENCH)/generate
	$< > $@

# The engine's own tables, as C reads them: the lines of numbers.
$(BENCH)/powers.inc: crates/curve/src/power_table.rt
$(BENCH)/ramps.inc: crates/road/src/ramp_table.rt
$(TABLES):
	@mkdir -p $(BENCH)
	@grep -E '^ *[0-9]+,[0-9, ]*$$' $< > $@

$(BENCH)/%: bench/%.c
	@mkdir -p $(BENCH)
	$(CC) $(CFLAGS) -o $@ $<

clean:
	rm -rf $(BUILD) target crates/*/out
