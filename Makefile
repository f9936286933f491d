# What a person runs by hand. `make` alone lists the targets.
SHELL := bash
.SHELLFLAGS := -euo pipefail -c
.PHONY: help demo test test-all bench fuzz sanitize model fmt library vectors clean

# How long `make fuzz` and `make sanitize` run, in seconds.
SECONDS_OF_FUZZ ?= 600

# How many calls `make model` makes: a minute or more on each machine of docs/TARGETS.md.
CALLS ?= 30000000

export CARGO_TARGET_DIR := $(CURDIR)/target/cargo
export WENTUQIS_LIB_DIR := $(CURDIR)/target/staticlib

# Each target says what it lacks before it builds anything: tools, or the original's source.
need = for tool in $(1); do command -v $$tool >/dev/null || { echo "$@: $$tool is not on PATH"; exit 1; }; done
need_original = bash oracle/build.sh --where >/dev/null
# Without the kit, an archive that is there already is taken.
need_library = if command -v rt >/dev/null; then $(build_library); else test -f $(WENTUQIS_LIB_DIR)/libwentuqis.a || \
	{ echo "$@: neither rt nor $(WENTUQIS_LIB_DIR)/libwentuqis.a is there"; exit 1; }; fi
build_library = echo 'Proving and building the library; the first time takes some minutes. A line for each crate:'; bash tools/library.sh

help:
	@echo 'make demo      build the library and show it on a depth picture and a camera frame; pictures go to out/'
	@echo 'make dist      prove the library and put a release together in target/dist, with all archives in target/staticlib'
	@echo 'make install   the library of that release for C to PREFIX ($(PREFIX)); DESTDIR goes before it'
	@echo 'make test      the whole test: layout, every proof, the library in C and Rust, and, where it is, the original'
	@echo 'make library   prove and build target/staticlib/libwentuqis.a'
	@echo '               for another machine: TARGET=.. LEVEL=v2 or v3 (docs/TARGETS.md), into a folder of its own there'
	@echo 'make fuzz      damaged calls under valgrind for ten minutes (SECONDS_OF_FUZZ=N: for N seconds), every byte held to the original, or'
	@echo '               without it to the rules alone'
	@echo 'make sanitize  the C boundary under ASan and UBSan, and random calls between guard pages for as long'
	@echo 'make model     for TARGET and LEVEL as above, once its archive and that for this machine are there: the tests of tests/targets.sh, and a'
	@echo '               minute of calls (CALLS=N: so many) that the rules alone answer'
	@echo 'make fmt       lay out every file of Rattle (rt fmt in each crate)'
	@echo 'make clean     remove all that these targets make, but what rt keeps in crates/*/out, which takes half an hour to make anew'
	@echo 'With the original Rust (oracle/README.md says how to get it, ORACLE_SRC names its folder):'
	@echo 'make test-all  the comparison with the original in its exhaustive form; some minutes'
	@echo 'make bench     nanoseconds a texel beside the original, to docs/BENCHMARKS.md'
	@echo 'make vectors   record the answers of the original, oracle/stills.rs, sets.rs and float16.c anew in crates/replay/data'

# What `make library` builds for: tools/library.sh lists the targets, docs/TARGETS.md says what was run of each.
TARGET ?= x86_64-unknown-linux-gnu
LEVEL ?= v2
# The folder of its archive, which is that of all archives for the first target at level v2.
FOLDER = $(WENTUQIS_LIB_DIR)$(filter-out /x86_64-unknown-linux-gnu,/$(TARGET)$(if $(filter v2,$(LEVEL)),,-$(LEVEL)))

library:
	@$(call need,rt)
	@$(build_library) $(TARGET) $(LEVEL)

demo:
	@$(call need,rt cargo cc)
	@$(build_library)
	@cargo run --offline --quiet --release --manifest-path rust/Cargo.toml --example demo -- out

test:
	@bash .ci/run

test-all:
	@$(call need,rt rustc cc)
	@$(need_original)
	@$(build_library)
	@bash oracle/build.sh compare && oracle/build/compare --all

bench:
	@$(call need,rt rustc cc)
	@$(need_original)
	@$(build_library)
	@bash oracle/build.sh bench && oracle/build/bench --markdown docs/BENCHMARKS.md

fuzz:
	@$(call need,rustc cc valgrind)
	@$(need_library)
	@if $(need_original); then bash oracle/build.sh fuzz; program=oracle/build/fuzz; \
	else echo 'fuzz: the rules alone answer'; bash oracle/build.sh --by-rules fuzz; program=oracle/build/by_rules/fuzz; fi; \
	valgrind -q --error-exitcode=9 $$program $(SECONDS_OF_FUZZ)

sanitize:
	@$(call need,cc)
	@$(need_library)
	@bash tests/sanitize.sh $(WENTUQIS_LIB_DIR) $(SECONDS_OF_FUZZ)

model:
	@$(call need,rustc cc)
	@bash tests/targets.sh $(TARGET) $(FOLDER) $(WENTUQIS_LIB_DIR) 200000 $(CALLS)

fmt:
	@$(call need,rt)
	@for folder in crates/*/; do (cd "$$folder" && rt fmt); done

vectors:
	@$(call need,rustc cc)
	@$(need_original)
	@bash oracle/build.sh record
	@rm -rf oracle/build/recorded && mkdir -p crates/replay/data oracle/build/recorded
	@oracle/build/record oracle/build/recorded
	@mv -f oracle/build/recorded/* crates/replay/data/

# A release, and its installation for C: neither install nor the release itself needs the kit.
.PHONY: dist install
PREFIX ?= /usr/local
VERSION = $(shell sed -n 's/^\#define WENTUQIS_VERSION "\(.*\)"$$/\1/p' include/wentuqis.h)
RELEASE = target/dist/wentuqis-$(VERSION)

dist:
	@$(call need,rt tar gzip sha256sum)
	@$(build_library)
	@bash tools/dist.sh

install:
	@[[ -d $(RELEASE) ]] || { echo "$@: there is no $(RELEASE): make it by 'make dist'"; exit 1; }
	@$(MAKE) --no-print-directory -C $(RELEASE) install PREFIX='$(abspath $(PREFIX))'

clean:
	rm -rf target oracle/build out tools/__pycache__
