# Installs the library for C, its header, the command and the tool that it calls. `make` alone says what there is.
# Rests on rt, which proves and writes the library (tools/prove), and cargo, which builds the command; neither is called where what it makes is
# newer than all that it is made of.

PREFIX = /usr/local
DESTDIR =

version := $(shell sed -n 's/^.define REMBURAI_VERSION "\(.*\)"$$/\1/p' include/remburai.h)
prefix := $(if $(PREFIX),$(shell realpath -ms -- "$(PREFIX)"))
to = $(DESTDIR)$(prefix)

library = crates/remburai/out/libremburai.a
command = rust/target/release/remburai
crates := $(shell find $(wildcard crates/*/src crates/*/specs crates/*/proofs) -type f)
sources := $(shell find rust/src -type f) rust/build.rs rust/Cargo.toml rust/Cargo.lock
rulelib := $(wildcard tools/rulelib/*.py)

.PHONY: help build install uninstall

help:
	@echo 'make build       proves and writes the library, and builds the command, where they are not current'
	@echo 'make install     the same, then puts header, library, pkg-config file, command and documents below PREFIX,'
	@echo '                 now $(prefix); DESTDIR goes in front of it'
	@echo 'make uninstall   removes them'

build: $(library) $(command)

$(library): $(crates) crates.txt
	tools/prove remburai

$(command): $(library) $(sources)
	cargo build --release --manifest-path rust/Cargo.toml --bin remburai
	touch $@

install: build
	install -d "$(to)/include" "$(to)/lib/pkgconfig" "$(to)/lib/remburai" "$(to)/bin" "$(to)/share/doc/remburai"
	install -m 644 include/remburai.h "$(to)/include/remburai.h"
	install -m 644 $(library) "$(to)/lib/libremburai.a"
	sed -e 's|@PREFIX@|$(prefix)|' -e 's|@VERSION@|$(version)|' remburai.pc.in > "$(to)/lib/pkgconfig/remburai.pc"
	chmod 644 "$(to)/lib/pkgconfig/remburai.pc"
	install -m 755 $(command) "$(to)/bin/remburai"
	install -m 755 tools/rule "$(to)/lib/remburai/rule"
	$(if $(rulelib),install -d "$(to)/lib/remburai/rulelib" && install -m 644 $(rulelib) "$(to)/lib/remburai/rulelib")
	install -m 644 README.md docs/FORMAT.md docs/RULES.md "$(to)/share/doc/remburai"

uninstall:
	rm -f "$(to)/include/remburai.h" "$(to)/lib/libremburai.a" "$(to)/lib/pkgconfig/remburai.pc" "$(to)/bin/remburai"
	rm -rf "$(to)/lib/remburai" "$(to)/share/doc/remburai"
