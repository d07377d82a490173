# Builds, checks and installs. All proofs are made by `rt`; this file only calls it and copies what it made.
#   make                    programs, archives, the desk's tool
#   make check              the gate
#   make install            PREFIX=/usr/local, DESTDIR for packagers
#   make uninstall          removes what install copied
PREFIX ?= /usr/local
DESTDIR ?=
VERSION := $(shell cat VERSION)

bin := $(DESTDIR)$(PREFIX)/bin
lib := $(DESTDIR)$(PREFIX)/lib
inc := $(DESTDIR)$(PREFIX)/include
man := $(DESTDIR)$(PREFIX)/share/man

programs := replay why hydra-desk
headers := hydra.h hydra-desk.h
archives := libhydra.a libhydra-desk.a
packages := hydra.pc hydra-desk.pc
pages1 := replay.1 why.1 hydra-desk.1
pages3 := hydra.3
pages5 := hydra-script.5

.PHONY: all programs archives desk-tool check install uninstall clean

all: programs archives desk-tool

# `rt run` proves and builds a program, and runs it: here on an empty script.
programs:
	mkdir -p target/bin
	for p in replay why; do (cd "crates/$$p" && rt run </dev/null >/dev/null) && cp "crates/$$p/out/$$p" "target/bin/$$p" || exit 1; done

archives: programs
	tools/archives

desk-tool: archives
	cargo build --quiet --offline --release --manifest-path tools/hydra-desk/Cargo.toml
	cp tools/hydra-desk/target/release/hydra-desk target/bin/hydra-desk

check:
	.ci/run

# Copies only: run `make` before.
install:
	install -d "$(bin)" "$(lib)/pkgconfig" "$(inc)" "$(man)/man1" "$(man)/man3" "$(man)/man5"
	for f in $(programs); do install -m 755 "target/bin/$$f" "$(bin)/$$f" || exit 1; done
	for f in $(headers); do install -m 644 "include/$$f" "$(inc)/$$f" || exit 1; done
	for f in $(archives); do install -m 644 "target/lib/$$f" "$(lib)/$$f" || exit 1; done
	for f in $(packages); do sed -e 's|@PREFIX@|$(PREFIX)|' -e 's|@VERSION@|$(VERSION)|' "docs/pkgconfig/$$f.in" > "$(lib)/pkgconfig/$$f" || exit 1; done
	for f in $(pages1); do sed 's|@VERSION@|$(VERSION)|' "docs/man/$$f" > "$(man)/man1/$$f" || exit 1; done
	for f in $(pages3); do sed 's|@VERSION@|$(VERSION)|' "docs/man/$$f" > "$(man)/man3/$$f" || exit 1; done
	for f in $(pages5); do sed 's|@VERSION@|$(VERSION)|' "docs/man/$$f" > "$(man)/man5/$$f" || exit 1; done

# Removes the files that install copied; folders stay.
uninstall:
	for f in $(programs); do rm -f "$(bin)/$$f"; done
	for f in $(headers); do rm -f "$(inc)/$$f"; done
	for f in $(archives); do rm -f "$(lib)/$$f"; done
	for f in $(packages); do rm -f "$(lib)/pkgconfig/$$f"; done
	for f in $(pages1); do rm -f "$(man)/man1/$$f"; done
	for f in $(pages3); do rm -f "$(man)/man3/$$f"; done
	for f in $(pages5); do rm -f "$(man)/man5/$$f"; done

clean:
	rm -rf target crates/*/out tools/hydra-desk/target tests/reference/target tests/compare/target
