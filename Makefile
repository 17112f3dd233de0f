# Builds, runs, tests and installs the library and its commands; `make help` says what there is.
# GNU make from 4.3 on, and a POSIX shell. Nothing is taken from a network.

PREFIX = /usr/local
DESTDIR =
INSTALL = install

# The version stands once, in the Rust workspace.
VERSION := $(shell sed -n 's/^version = "\(.*\)"$$/\1/p' rust/Cargo.toml)

ARCHIVE = target/staticlib/libjws_ffi.a
COMMANDS = rust/target/release/jws-table rust/target/release/jws-token
PKGCONFIG = target/jws.pc

# What the archive is proved and compiled from, and what the commands are.
PROVED := crates.txt tools/staticlib $(shell find crates -name out -prune -o \( -name '*.rt' -o -name '*.antt' \) -print)
CALLING := rust/Cargo.toml rust/Cargo.lock rust/tools/aligned_archive.sh rust/tools/archive.rs $(shell find rust/jws/src rust/jws/build.rs rust/jws/Cargo.toml \
    rust/jws-cli/src rust/jws-cli/Cargo.toml -type f)

# The machines of `make test-nodes`; all of them where it is empty.
MACHINES =

# What `make install` writes, below DESTDIR.
INSTALLED = $(PREFIX)/lib/libjws.a $(PREFIX)/include/jws.h $(PREFIX)/lib/pkgconfig/jws.pc $(PREFIX)/bin/jws-table $(PREFIX)/bin/jws-token

# need PROGRAM, WHAT IT IS: stops where it isn't there.
need = @command -v $(1) >/dev/null || { echo 'make: $(1) is missing: $(2)' >&2; exit 1; }

.PHONY: all run nodes test test-nodes install uninstall clean help

all: $(ARCHIVE) $(COMMANDS)

# A line for each crate as its check begins; the rest of what the prover says goes to target/make.log, and is shown where it fails.
$(ARCHIVE): $(PROVED)
	$(call need,rt,the Rattle kit has it and the library is proved and compiled by it)
	@echo 'Proving the library and compiling $@ (the first time takes some minutes, with a line for each crate as it begins)'
	@mkdir -p target
	@rm -f target/make.failed
	@{ tools/staticlib jws_ffi 2>&1 || : >target/make.failed; } | tee target/make.log | \
	    while IFS= read -r line; do case $$line in 'rt: chose --jobs '*) printf '  %s\n' "$${line##* }" ;; esac; done
	@if [ -e target/make.failed ]; then cat target/make.log; echo 'make: the library is not proved (above, and in target/make.log)' >&2; exit 1; fi

$(COMMANDS) &: $(ARCHIVE) $(CALLING)
	$(call need,cargo,the commands are written in Rust and compiled by it)
	$(call need,cc,a C compiler by which Rust links)
	@echo 'Compiling the commands jws-table and jws-token'
	@cd rust && cargo build --quiet --release --offline --locked -p jws-cli
	@touch $(COMMANDS)

$(PKGCONFIG): jws.pc.in rust/Cargo.toml
	@mkdir -p target
	@sed 's/@VERSION@/$(VERSION)/' jws.pc.in >$@

run: $(COMMANDS)
	@examples/setpoint.sh rust/target/release target/run

nodes: $(ARCHIVE)
	$(call need,python3,it compiles the proved module for other processors)
	@python3 nodes/build.py

test:
	@.ci/run

test-nodes: $(ARCHIVE)
	$(call need,python3,it runs the archives on their processors)
	$(call need,cargo,the calls to be made are written by a program in Rust)
	@python3 nodes/test.py $(MACHINES)

install: $(ARCHIVE) $(COMMANDS) $(PKGCONFIG)
	@echo 'Installing libjws $(VERSION) and its commands below $(DESTDIR)$(PREFIX)'
	@for folder in bin include lib lib/pkgconfig; do \
	    [ -d "$(DESTDIR)$(PREFIX)/$$folder" ] || $(INSTALL) -d "$(DESTDIR)$(PREFIX)/$$folder" || exit 1; done
	@$(INSTALL) -m 644 $(ARCHIVE) "$(DESTDIR)$(PREFIX)/lib/libjws.a"
	@$(INSTALL) -m 644 include/jws.h "$(DESTDIR)$(PREFIX)/include/jws.h"
	@$(INSTALL) -m 644 $(PKGCONFIG) "$(DESTDIR)$(PREFIX)/lib/pkgconfig/jws.pc"
	@$(INSTALL) -m 755 $(COMMANDS) "$(DESTDIR)$(PREFIX)/bin"

uninstall:
	@echo 'Removing libjws and its commands below $(DESTDIR)$(PREFIX)'
	@rm -f $(patsubst %,"$(DESTDIR)%",$(INSTALLED))

clean:
	@echo 'Removing target and rust/target'
	@rm -rf target rust/target

help:
	@echo 'make            prove and compile the archive, compile the commands jws-table and jws-token'
	@echo 'make run        an example in one go: a key table, a signed setpoint, a forged one refused, the signed one accepted'
	@echo 'make test       the whole gate (.ci/run): proofs, must-fail edits, programs, Rust and C tests'
	@echo 'make nodes      archives for the processors of nodes below target/nodes, and target/nodes/jws.wasm, each with its size'
	@echo 'make test-nodes runs them on their processors, most of them emulated by qemu, and compares; it says which packages of Debian it lacks'
	@echo 'make install    lib/libjws.a, include/jws.h, lib/pkgconfig/jws.pc, bin/jws-table and bin/jws-token to PREFIX ($(PREFIX)), below DESTDIR'
	@echo 'make uninstall  removes these files'
	@echo 'make clean      removes target and rust/target'
