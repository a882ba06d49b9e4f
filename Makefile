# Installs the program that ./ix_export takes, or the one that PROGRAM names, with its man page, completions and documents:
#
#   make install PREFIX=$HOME/.local
#   make uninstall PREFIX=$HOME/.local
#
# and the library for C with its header, where `make lib` has built it, or by itself:
#
#   make lib && make install-lib PREFIX=$HOME/.local
#
# DESTDIR stands before each path, for packages.
PREFIX ?= /usr/local
DESTDIR ?=
PROGRAM ?=
LIBRARY ?= build/lib/libix_export.a
SHELL := /bin/bash
.SHELLFLAGS := -euo pipefail -c

share := $(DESTDIR)$(PREFIX)/share
files := \
  $(DESTDIR)$(PREFIX)/bin/ix_export \
  $(share)/man/man1/ix_export.1 \
  $(share)/bash-completion/completions/ix_export \
  $(share)/zsh/site-functions/_ix_export \
  $(share)/fish/vendor_completions.d/ix_export.fish
doc := $(share)/doc/ix_export
docs := $(wildcard docs/*.md)
lib_files := \
  $(DESTDIR)$(PREFIX)/lib/libix_export.a \
  $(DESTDIR)$(PREFIX)/lib/pkgconfig/ix_export.pc \
  $(DESTDIR)$(PREFIX)/include/ix_export.h

.PHONY: program lib install install-lib uninstall test
program:
	@./ix_export --where

install:
	@program="$(PROGRAM)"; \
	[ -n "$$program" ] || program=$$(./ix_export --where); \
	install -D -m 755 "$$program" "$(word 1,$(files))"; \
	install -D -m 644 install/ix_export.1 "$(word 2,$(files))"; \
	install -D -m 644 install/ix_export.bash "$(word 3,$(files))"; \
	install -D -m 644 install/_ix_export "$(word 4,$(files))"; \
	install -D -m 644 install/ix_export.fish "$(word 5,$(files))"; \
	install -d "$(doc)"; \
	install -m 644 $(docs) "$(doc)"; \
	[ ! -e "$(LIBRARY)" ] || $(MAKE) --no-print-directory install-lib

lib:
	@tools/library

install-lib:
	@[ -e "$(LIBRARY)" ] || { echo 'make install-lib: there is no $(LIBRARY): make lib builds it' >&2; exit 1; }; \
	install -D -m 644 "$(LIBRARY)" "$(word 1,$(lib_files))"; \
	sed 's|@PREFIX@|$(PREFIX)|' install/ix_export.pc | install -D -m 644 /dev/stdin "$(word 2,$(lib_files))"; \
	install -D -m 644 include/ix_export.h "$(word 3,$(lib_files))"

uninstall:
	@rm -f $(files) $(lib_files) $(docs:docs/%=$(doc)/%); \
	[ ! -d "$(doc)" ] || rmdir --ignore-fail-on-non-empty "$(doc)"

test:
	@tests/quick.sh
