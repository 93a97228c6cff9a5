# Builds, tests and installs bsi. The Rattle kit's command `rt` must be on the path.

PREFIX ?= /usr/local
PYTHON ?= /usr/bin/python3
PROGRAM = crates/bsi/out/bsi
SONAME := libbsi.so.$(shell sed -E 's/^(0\.[0-9]+|[0-9]+)\..*/\1/' VERSION)
NAME := bsi-$(shell cat VERSION)-$(shell uname -s | tr A-Z a-z)-$(shell uname -m)
BIN = $(DESTDIR)$(PREFIX)/bin
MAN = $(DESTDIR)$(PREFIX)/share/man/man1
BASH = $(DESTDIR)$(PREFIX)/share/bash-completion/completions
ZSH = $(DESTDIR)$(PREFIX)/share/zsh/site-functions
INCLUDE = $(DESTDIR)$(PREFIX)/include
LIB = $(DESTDIR)$(PREFIX)/lib

.PHONY: build lib check demo test install uninstall dist clean bench plot

build:
	@tools/build

# The C library, into out/lib. docs/C.md shows a program that uses it.
lib:
	@crates/bsi_c/library

demo:
	@tools/demo

# It rests on the proofs that earlier checks kept in the crates' folders out/, and is no verdict. Rattle's own compiler builds what is run
# here, in a third of the time that LLVM takes; the calls of its programs take more of the stack.
check:
	@ulimit -s 65536; RT_BACKEND=rattle rt all test --jobs "$$(nproc)" && tools/cases

test:
	@tools/full

install: build lib
	install -d "$(BIN)" "$(MAN)" "$(BASH)" "$(ZSH)" "$(INCLUDE)" "$(LIB)/pkgconfig"
	install -m 755 $(PROGRAM) "$(BIN)/bsi"
	install -m 644 man/bsi.1 "$(MAN)/bsi.1"
	install -m 644 completions/bsi.bash "$(BASH)/bsi"
	install -m 644 completions/_bsi "$(ZSH)/_bsi"
	install -m 644 include/bsi.h "$(INCLUDE)/bsi.h"
	install -m 644 out/lib/libbsi.a "$(LIB)/libbsi.a"
	install -m 755 out/lib/libbsi.so "$(LIB)/$(SONAME)"
	ln -sf $(SONAME) "$(LIB)/libbsi.so"
	sed 's|@VERSION@|$(shell cat VERSION)|' include/bsi.pc.in >"$(LIB)/pkgconfig/bsi.pc"

uninstall:
	rm -f "$(BIN)/bsi" "$(MAN)/bsi.1" "$(BASH)/bsi" "$(ZSH)/_bsi" "$(INCLUDE)/bsi.h" "$(LIB)/pkgconfig/bsi.pc"
	rm -f "$(LIB)/libbsi.a" "$(LIB)/$(SONAME)" "$(LIB)/libbsi.so"

# For machines without the kit: unpacked anywhere, or copied over a prefix. In its pages, what lies in the repository alone has no link.
dist: build lib wheel
	rm -rf out/dist
	$(MAKE) -s -o build -o lib install DESTDIR=out/dist/ PREFIX=$(NAME)
	for wheel in out/wheel/*.whl; do [ ! -e "$$wheel" ] || install -D -m 644 -t out/dist/$(NAME)/wheel "$$wheel"; done
	cp -r README.md CHANGELOG.md LICENSE-APACHE LICENSE-MIT docs examples out/dist/$(NAME)
	sed -Ezi 's@\[([^]]*)\]\((\.\./)?(CONTRIBUTING|bench|cases|crates|python|tests|tools)[^)]*\)@\1@g' \
	    out/dist/$(NAME)/*.md out/dist/$(NAME)/docs/*.md out/dist/$(NAME)/examples/*.md
	cd out/dist && tar --sort=name --mtime=@0 --owner=0 --group=0 -c $(NAME) | gzip -9n >$(NAME).tar.gz && sha256sum $(NAME).tar.gz >SHA256SUMS
	rm -r out/dist/$(NAME) # it has a link, which the kit's commands refuse anywhere in a repository

bench: build
	@bench/run

plot:
	@bench/plot bench/figures.txt docs

# The Python package with the library, for pip, which then needs no network: docs/PYTHON.md.
.PHONY: wheel
wheel: lib
	rm -rf out/wheel && mkdir -p out/wheel/build
	cp -r python/bsi python/pyproject.toml python/setup.py python/README.md VERSION LICENSE-APACHE LICENSE-MIT out/wheel/build
	install -m 644 out/lib/libbsi.so out/wheel/build/bsi
	cd out/wheel && $(PYTHON) -m pip wheel -q --no-build-isolation --no-index --no-deps ./build
	rm -r out/wheel/build

clean:
	rm -rf crates/*/out out
