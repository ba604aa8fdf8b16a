# make                            what can be made
# make check                      the tests, on the program that is there
# make gallery                    each program of the gallery with its verdict
# make install PREFIX=/usr/local  the proved program, geo, the pages, the examples and the manual; .ci/run makes the program first
# make install-library PREFIX=..  the library for C and C++ and the module for Python; bindings/build makes them first
# make install-prove PREFIX=..    the name prove too; Perl has a command of this name, so leave it out in /usr/bin
# make uninstall PREFIX=..        takes away what was installed
# make dist                       the files of a release, in out/release
# SPDX-License-Identifier: Apache-2.0
PREFIX ?= /usr/local
DESTDIR ?=
INSTALL ?= install
program := crates/geo_cli/out/geo_cli
root := $(DESTDIR)$(PREFIX)
home := $(root)/lib/jarduzki
doc := $(root)/share/doc/jarduzki
man := $(root)/share/man/man1
completions := $(root)/share/bash-completion/completions
python := $(root)/lib/python3/dist-packages
pages := README.md CHANGELOG.md CITATION.cff CONTRIBUTING.md LICENSE NOTICE VERSION
shown := bindings coq crates/*/specs crates/*/src docs editors examples tools/writer

.PHONY: help check dist gallery install install-library install-prove uninstall
help:
	@sed -n 's/^# make/make/p' Makefile
check:
	tests/run
gallery:
	./geo decide examples/*.geo
dist:
	release/dist
install: $(program)
	@./geo --version | grep -q 'the gate proved it' || { ./geo --version; echo "'.ci/run' proves the program, and records it" >&2; exit 1; }
	$(INSTALL) -d "$(home)/docs" "$(home)/man" "$(doc)" "$(root)/bin" "$(man)" "$(completions)"
	$(INSTALL) $(program) geo prove "$(home)"
	$(INSTALL) -m 644 $(program).proved VERSION "$(home)"
	$(INSTALL) -m 644 docs/LANGUAGE.md docs/LEMMAS.md docs/LOG.md "$(home)/docs"
	$(INSTALL) -m 644 man/geo.1 "$(home)/man"
	tools/install tools coq "$(home)"
	tools/install $(pages) $(shown) "$(doc)"
	ln -sf ../lib/jarduzki/geo "$(root)/bin/geo"
	$(INSTALL) -m 644 man/geo.1 "$(man)"
	$(INSTALL) -m 644 tools/completion.bash "$(completions)/geo"
install-library:
	@test -f bindings/out/libgeo_c.so || { echo "bindings/build makes the library first" >&2; exit 1; }
	$(INSTALL) -d "$(root)/include" "$(root)/lib/pkgconfig" "$(python)"
	$(INSTALL) -m 644 bindings/c/geo_c.h "$(root)/include"
	$(INSTALL) -m 644 bindings/out/libgeo_c.so bindings/out/libgeo_c.a "$(root)/lib"
	sed 's|@PREFIX@|$(PREFIX)|;s|@VERSION@|$(shell cat VERSION)|' bindings/c/jarduzki.pc.in >"$(root)/lib/pkgconfig/jarduzki.pc"
	$(INSTALL) -m 644 bindings/python/jarduzki.py "$(python)"
install-prove: install
	ln -sf ../lib/jarduzki/prove "$(root)/bin/prove"
	ln -sf geo.1 "$(man)/prove.1"
	ln -sf geo "$(completions)/prove"
uninstall:
	rm -rf "$(home)" "$(doc)"
	rm -f "$(root)/bin/geo" "$(man)/geo.1" "$(completions)/geo"
	rm -f "$(root)/include/geo_c.h" "$(root)/lib/libgeo_c.so" "$(root)/lib/libgeo_c.a" "$(root)/lib/pkgconfig/jarduzki.pc" "$(python)/jarduzki.py"
	for link in "$(root)/bin/prove" "$(man)/prove.1" "$(completions)/prove"; do \
	  case $$(readlink "$$link") in ../lib/jarduzki/prove|geo.1|geo) rm -f "$$link" ;; esac; done
$(program):
	@echo "there is no $@: '.ci/run' proves the program, and leaves it there" >&2; exit 1
