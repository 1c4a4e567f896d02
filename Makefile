# make: the static library (proved and built by rt where it is missing) and the tool, target/zolkirta. ZOLKIRTA_LIB_DIR=... names the
# folder of a library that is built already.
# make install PREFIX=/usr/local: tool, header, library and pkg-config file; make uninstall removes them. DESTDIR stands before PREFIX.
# make check: installs into a folder of its own, and runs from there without an environment, and without root's rights where it has them.
PREFIX ?= /usr/local
DESTDIR ?=
ifdef ZOLKIRTA_LIB_DIR
override ZOLKIRTA_LIB_DIR := $(abspath $(ZOLKIRTA_LIB_DIR))
export ZOLKIRTA_LIB_DIR
endif

library := $(or $(ZOLKIRTA_LIB_DIR),target/staticlib)/libzolkirta.a
tool := target/zolkirta
crate := hosts/rust
sources := $(wildcard $(crate)/src/*.rs $(crate)/src/bin/zolkirta/*.rs) $(crate)/build.rs $(crate)/Cargo.toml
version := $(shell sed -n 's/^\#define ZOLKIRTA_VERSION "\(.*\)"/\1/p' include/zolkirta.h)
installed = $(DESTDIR)$(PREFIX)

all: $(library) $(tool)

target/staticlib/libzolkirta.a:
	hosts/build-library

$(tool): $(sources) $(library)
	cargo build --release --offline --bin zolkirta --manifest-path $(crate)/Cargo.toml --target-dir $(crate)/target
	mkdir -p $(@D)
	cp $(crate)/target/release/zolkirta $@

# Everyone may read what is installed, whatever the umask.
install: all
	umask 022 && install -d '$(installed)/bin' '$(installed)/include' '$(installed)/lib/pkgconfig'
	install -m 755 $(tool) '$(installed)/bin'
	install -m 644 include/zolkirta.h '$(installed)/include'
	install -m 644 $(library) '$(installed)/lib'
	sed 's|@PREFIX@|$(PREFIX)|; s|@VERSION@|$(version)|' hosts/c/zolkirta.pc.in > '$(installed)/lib/pkgconfig/zolkirta.pc'
	chmod 644 '$(installed)/lib/pkgconfig/zolkirta.pc'

uninstall:
	rm -f '$(installed)/bin/zolkirta' '$(installed)/include/zolkirta.h' '$(installed)/lib/libzolkirta.a' \
		'$(installed)/lib/pkgconfig/zolkirta.pc'

check: all
	hosts/check-install

clean:
	rm -f $(tool)

.PHONY: all install uninstall check clean
