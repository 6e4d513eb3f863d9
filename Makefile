# Everything that can be typed here; `make help` lists it.
.DELETE_ON_ERROR:
.NOTPARALLEL:
.PHONY: all help install uninstall clean distclean list write test check compare soak bench fmt

PREFIX ?= /usr/local
CFLAGS ?= -O2

# What is typed is handed to the recipes as it is, in the environment: make does not expand it, and no shell reads it as a part of a command.
override PREFIX := $(value PREFIX)
override DESTDIR := $(value DESTDIR)
override IMAGE := $(value IMAGE)
override FORMAT := $(value FORMAT)
override REQUEST := $(value REQUEST)
override IMAGES := $(value IMAGES)
override SEED := $(value SEED)
override BOARDS := $(value BOARDS)
export PREFIX DESTDIR IMAGE FORMAT REQUEST IMAGES SEED BOARDS

BUILT := target/chip
PROGRAMS := tiny_list board_list tiny_write board_write
SOURCES := crates.txt $(shell find crates -name '*.rt' -o -name '*.antt')
COMPARED := $(PROGRAMS) tiny_answers board_answers choice_answers host_c reader_c crc_c
STRICT := -std=c11 -Wall -Wextra -pedantic
BENCH_DIR := target/bench
BENCH_FLAGS := -std=c11 -O3 -Wall -Wextra -pedantic

all: $(BUILT)/bin/chip ## prove and build the command chip and the library libchip.a, in target/chip

help: ## list the targets
	@grep -E '^[a-z]+:.*## ' $(firstword $(MAKEFILE_LIST)) | sed -E 's/^([a-z]+):.*## /\1\t/' | expand -t 11

install: $(BUILT)/bin/chip ## install them: make install PREFIX=/usr/local DESTDIR=
	@scripts/install

uninstall: ## take away what was installed: make uninstall PREFIX=/usr/local DESTDIR=
	@scripts/install -r

clean: ## remove target/chip
	@rm -rf $(BUILT)

distclean: ## remove target, and out in each crate, with every proof
	@rm -rf target crates/*/out

# A stamp: what a run that failed has left is not taken for proved.
target/proved: $(SOURCES)
	@scripts/prove $(PROGRAMS) host_c
	@touch $@

$(BUILT)/lib/libchip.a: target/proved
	@mkdir -p $(BUILT)/lib
	@cp target/staticlib/libhost.a $@

$(BUILT)/bin/chip: $(BUILT)/lib/libchip.a $(wildcard chip/*) docs/LISTING.md docs/WRITING.md
	@command -v $(CC) >/dev/null || { echo "make: no C compiler: $(CC) is not found" >&2; exit 1; }
	@mkdir -p $(addprefix $(BUILT)/,bin libexec/chip include share/man/man1 share/man/man3 share/doc/chip)
	@cp $(PROGRAMS:%=target/bin/%) $(BUILT)/libexec/chip/
	@cp chip/chip.h $(BUILT)/include/
	@cp chip/chip.1 $(BUILT)/share/man/man1/
	@cp chip/chip.3 $(BUILT)/share/man/man3/
	@cp docs/LISTING.md docs/WRITING.md $(BUILT)/share/doc/chip/
	@$(CC) $(STRICT) $(CPPFLAGS) $(CFLAGS) $(LDFLAGS) -o $@ $(wildcard chip/*.c) $(BUILT)/lib/libchip.a
	@echo "built $@ and $(BUILT)/lib/libchip.a"

list: ## list the image in a file, without the command: make list IMAGE=samples/case4.bin (FORMAT=tiny or FORMAT=board; else its first byte tells)
	@scripts/list "$$IMAGE" "$$FORMAT"

write: ## write an image, without the command: make write REQUEST='12; 10 01 00; 74 6F 70 B1' (FORMAT=board: docs/WRITING.md)
	@scripts/write "$$REQUEST" "$$FORMAT"

test: ## the gate: prove everything, try the must-fail edits, run the programs, compare
	@.ci/run

check: ## prove what has changed since it was last proved, and run the programs
	@rt all test

compare: ## compare with readers and writers in C and Rust: make compare IMAGES=20000 SEED=1 BOARDS=12000
	@scripts/prove $(COMPARED)
	@python3 tests/run.py "$${IMAGES:-20000}" "$${SEED:-1}" "$${BOARDS:-12000}"

soak: ## compare more images through C with a reader in Rust: make soak IMAGES=2000000 SEED=2
	@scripts/prove host_c reader_c
	@python3 tests/host_runs.py "$${IMAGES:-2000000}" "$${SEED:-2}"

bench: ## time the CRCs against zlib and a plain C loop, and judge, list and name against a reader in Rust and zlib's crc32 (no test)
	@command -v $(CC) >/dev/null || { echo "bench: no C compiler: $(CC) is not found" >&2; exit 1; }
	@command -v rustc >/dev/null || { echo "bench: no Rust compiler: rustc is not found" >&2; exit 1; }
	@echo '#include <zlib.h>' | $(CC) -E - >/dev/null 2>&1 || { echo "bench: zlib.h is missing: install the package zlib1g-dev" >&2; exit 1; }
	@scripts/prove crc_c host_c reader_c
	@mkdir -p $(BENCH_DIR)
	@rustc --edition 2021 -C opt-level=3 -C panic=abort --crate-type staticlib -o $(BENCH_DIR)/libindependent.a tests/independent.rs
	@$(CC) $(BENCH_FLAGS) -o $(BENCH_DIR)/crc bench/crc.c target/staticlib/libcrc_c.a -lz
	@$(CC) $(BENCH_FLAGS) -o $(BENCH_DIR)/reader bench/reader.c bench/images.c target/staticlib/libhost.a target/staticlib/libreader_c.a \
		$(BENCH_DIR)/libindependent.a -lz -lpthread -ldl -lm
	@$(BENCH_DIR)/crc
	@$(BENCH_DIR)/reader

fmt: ## lay out all Rattle and antt files
	@for crate in crates/*; do (cd $$crate && rt fmt) || exit 1; done
