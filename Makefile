# make            prove every crate, build the programs and the static library target/staticlib/libkernel.a
# make run        prove and build the programs, and print the desk log of the worked example of document 01
# make host       prove the kernel, build its library and run the example host: the same example, through C
# make day        prove the kernel, and play the freight forwarder's day with real tab and cookie programs
# make test       the gate: proofs, must-fail edits, programs, the C boundary, the second reading
# make mutants    print docs/MUTANTS.md: wrong references, and which test notices each
# make fuzz       fuzz for TIME seconds, 60 unless set, from the corpus on
# make bench      print docs/BENCH.md: what a step costs, beside plain C and the reference; the desk log beside the kernel
# make fmt        lay the Rattle files out
# make install    put library, header, programs, manual pages and the rules under PREFIX (/usr/local), DESTDIR before it if set
# make uninstall  take them away again
# Standard output has what is asked for, and standard error how far rt is, crate by crate. CC names another compiler than gcc.
SHELL = bash
.SHELLFLAGS = -o pipefail -c
ARCHIVE = target/staticlib/libkernel.a
REFERENCE = target/rust/release/libreference_c.a
PROGRAMS = desklog asksuffix
TIME = 60
ifeq ($(origin CC),default)
CC = gcc
endif

.PHONY: all run host day test mutants fuzz bench fmt clean archive program reference always
.NOTPARALLEL: # rt has jobs of its own, and a crate is for one rt at a time

all: archive program
	rt all check

# $(call prove,CRATE,WORDS): runs rt in the crate's folder with these words. All that it says is in target/CRATE.log, and is shown
# if it fails; until then a line for each crate of which something had to be proved.
define prove
	@mkdir -p target
	@[[ -e crates/terms/out/rlib ]] || echo 'nothing is proved yet: this takes some minutes' >&2
	@(cd crates/$(1) && rt $(2)) </dev/null 2>&1 | tee target/$(1).log | \
	    sed -Eun 's/^crate ([a-z0-9_]+): modules loaded=[0-9]+ checked=[1-9].*/rt: \1/p' >&2 || \
	    { cat target/$(1).log >&2; exit 1; }
endef

# $(call put,FILE,MODE): puts the file there if it is another than what is there.
put = @mkdir -p $(@D); cmp -s $(1) $@ || install -m $(2) $(1) $@

archive: $(ARCHIVE)

# rt lib builds a static library at each call; of a library below it only what has changed, and the stamp tells whether it has.
$(ARCHIVE): target/kernel.stamp crates/kernel_c/src/lib.rt
	$(call prove,kernel_c,lib)
	$(call put,crates/kernel_c/out/libkernel_c.a,644)
	@touch $@

target/kernel.stamp: always
	$(call prove,kernel,lib)
	$(call put,crates/kernel/out/rlib/stamp,644)

program: $(PROGRAMS:%=target/bin/%)

# rt run builds a program where something has changed, and runs it.
target/bin/%: always
	$(call prove,$*,run -- --version)
	$(call put,crates/$*/out/$*,755)

reference:
	@cargo build --quiet --release --offline --manifest-path reference/c/Cargo.toml --target-dir target/rust

run: program
	@cd crates/desklog/data && ../../../target/bin/desklog <../stdin

host: archive
	@set -x; $(CC) -std=c11 -O2 -Wall -Wextra -Wpedantic -Werror -Iinclude host/example.c $(ARCHIVE) -o target/example
	@target/example

day: archive
	@$(MAKE) -s -C host/day
	@target/day/day

test:
	.ci/run

mutants: archive program
	@tests/mutants/run.py --table

fuzz: archive
	fuzz/run.sh $(TIME)

bench: archive program reference
	@bench/run.sh $(ARCHIVE) $(REFERENCE)
	@bench/log.py

fmt:
	@for crate in crates/*/; do (cd "$$crate" && rt fmt) || exit; done

clean:
	rm -rf target crates/*/out

include install/install.mk
