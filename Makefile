# XM-23 examination machine. 'make help' lists what there is.

.PHONY: help run line lib desk install install-lib deb uninstall input list card prove edits test fuzz fuzz_words replay bench
.PHONY: clean headers

CFLAGS = -std=c99 -pedantic -O2 -Wall -Wextra -Werror -Iinclude
ORACLE = --offline --locked --manifest-path oracle/Cargo.toml --target-dir oracle/target
EXAMPLE = examples/interrupts
PREFIX = /usr/local
DESTDIR =
CASE =
OUT =
CARD = build/card.html
INPUTS = 100000
SEED =
FUZZ_SECONDS = 60
FOUND =
CRATE =

# A word as one word of the shell, whatever is in it.
quoted = '$(subst ','\'',$1)'

VERSION := $(shell scripts/version.sh)
ARCHIVE = target/staticlib/libxm23.a
SHARED = build/libxm23.so.$(VERSION)

help:
	@cat docs/COMMANDS.txt

# Of the example sitting one program is as expected and five are not: status 1 is what it ends with.
run: build/xm23
	@rm -rf build/sitting
	@cd examples/sitting && ../../build/xm23 mark -o ../../build/sitting sum.paper programs/* || [ $$? -eq 1 ]
	@echo 'build/sitting/index.html     the table, for a browser: a page for each program'
	@echo 'build/sitting/results.csv    the same, for a spreadsheet'

line: target/bin/print_state build/xm23
	@target/bin/print_state < $(EXAMPLE).in | build/xm23 line

lib: $(ARCHIVE)
	@echo '$<'

desk: build/xm23
	@echo '$<'

install: target/bin/print_state $(ARCHIVE) $(SHARED) build/xm23
	@scripts/install.sh install $(call quoted,$(PREFIX)) $(call quoted,$(DESTDIR))

# The library alone, which needs no program.
install-lib: $(ARCHIVE) $(SHARED)
	@scripts/install.sh install-lib $(call quoted,$(PREFIX)) $(call quoted,$(DESTDIR))

deb: target/bin/print_state $(ARCHIVE) $(SHARED) build/xm23
	@scripts/deb.sh build/deb

uninstall:
	@scripts/install.sh uninstall $(call quoted,$(PREFIX)) $(call quoted,$(DESTDIR))

# print_state's input, of a readable case, whose source the library assembles.
input: $(if $(CASE),$(ARCHIVE))
	@scripts/input.sh $(call quoted,$(CASE)) $(if $(OUT),$(call quoted,$(OUT)))

list: build/xm23
	@build/xm23 dis examples/copy_words.s19

card: build/xm23
	@build/xm23 card -o $(call quoted,$(CARD)) && echo $(call quoted,$(CARD))

# Crates, and crates or single edits: CRATE='run refusal/refuses_all'.
prove:
	@$(if $(strip $(CRATE)),scripts/prove.py above $(CRATE))
	@scripts/prove.py crates $(CRATE)

edits:
	@scripts/prove.py crates $(sort $(foreach word,$(CRATE),$(firstword $(subst /, ,$(word)))))
	@scripts/edits.py $(CRATE)

test:
	@scripts/test.sh

fuzz: fuzz_words $(ARCHIVE)
	@scripts/oracle.sh fuzz $(INPUTS) $(SEED)
	@scripts/fuzz.sh $(FUZZ_SECONDS) $(SEED)

# Before anything is built.
fuzz_words:
	@for word in $(foreach name,INPUTS SEED FUZZ_SECONDS,$(call quoted,$(name)=$($(name)))); do \
	    case $${word#*=} in *[!0-9]*) echo "make fuzz: $$word is no number" >&2; exit 2 ;; esac; \
	done

replay: $(if $(FOUND),$(ARCHIVE))
	@[ -n $(call quoted,$(FOUND)) ] || { echo 'make replay: FOUND=build/fuzz/.. is missing: a saved difference' >&2; exit 2; }
	@scripts/oracle.sh fuzz replay $(call quoted,$(FOUND))

bench: $(ARCHIVE) target/staticlib/libalu_probe.a build/libxm23_fast.a build/layouts/libxm23_layouts.a build/srec build/xm23
	@cargo bench $(ORACLE) --bench decode
	@cargo bench $(ORACLE) --bench operations
	@cargo bench $(ORACLE) --bench run
	@cargo bench $(ORACLE) --bench srec
	@cargo bench $(ORACLE) --bench stack
	@cargo bench $(ORACLE) --bench sheet
	@cargo bench $(ORACLE) --bench assemble

clean:
	rm -rf target build oracle/target crates/*/out

# The example's input, after a change of its source.
$(EXAMPLE).in: $(EXAMPLE).txt | $(ARCHIVE)
	@scripts/input.sh $< $@

# The program of setters and markers. SHA-256 is libcrypto's.
build/xm23: $(wildcard desk/*) include/xm23.h $(ARCHIVE)
	@scripts/desk.sh $@

build/%: examples/%.c include/xm23.h $(ARCHIVE)
	@mkdir -p build
	@gcc $(CFLAGS) -o $@ $< $(ARCHIVE)

build/libxm23.so.%: $(ARCHIVE)
	@scripts/shared.sh '$<' '$@'

build/libxm23_fast.a: bench/xm23_fast.c
	@mkdir -p build
	@gcc -std=gnu11 -O2 -Wall -Wextra -Werror -c -o build/xm23_fast.o $<
	@ar rcs $@ build/xm23_fast.o

# Both of them in two code layouts, where objcopy is here.
build/layouts/libxm23_layouts.a: $(ARCHIVE) build/libxm23_fast.a scripts/layouts.sh
	@scripts/layouts.sh

# What a crate is made of: its files and those of the crates that it stands on, which crates.txt has above it. Where one
# is newer, has come or has gone, rt is asked, and proves what has changed.
folders = $(shell tac crates.txt | awk -F '[: ]+' -v crate=$1 'BEGIN { on[crate] } \
    $$1 in on { for (i = 2; i <= NF; i++) on[$$i]; print "crates/" $$1 }')
sources = crates.txt $(shell find $(folders) ! -path '*/must-fail*' ! -path '*/out' ! -path '*/out/*')

target/staticlib/libxm23.a: $(call sources,xm23) $(call sources,xm23_judge) $(call sources,xm23_run_c) \
        $(call sources,xm23_run_journal) $(call sources,xm23_sheet) $(call sources,xm23_trace)
target/staticlib/libalu_probe.a: $(call sources,alu_probe)
target/bin/print_state: $(call sources,print_state)

# What the desk program needs besides is looked for before anything is proved for it.
$(ARCHIVE) target/bin/print_state: | $(if $(filter run line desk install list card bench build/xm23,$(MAKECMDGOALS)),headers)

headers:
	@[ -e build/xm23 ] || scripts/crypto.sh > /dev/null

target/staticlib/lib%.a:
	@scripts/prove.py archive $*

target/bin/%:
	@scripts/prove.py program $*
