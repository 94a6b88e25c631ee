# What a person types. Each target is a line; CONTRIBUTING.md says when to use which.
#   make                    proves and builds the program, crates/lq/out/lq: seconds if nothing changed, 22 to 40 minutes
#                           from nothing
#   make quick              what an edit breaks most often, in a minute and what rt check takes: SINCE=main~1 adds commits
#   make test               all tests that need no kit, in minutes, over what was built here or else is in release/
#   make try                a script by the unproved program, in one to two minutes: S=script W=words
#   make check C=lq_desk    proves one crate, over what was kept
#   make crate-test C=..    proves and runs the tests of one crate
#   make edits C=lq_desk    tries the must-fail edits of one crate
#   make scenario N=clobber one scenario through the program
#   make scenarios          all of them, and the table of formulas
#   make gate               the merge gate, over an hour from nothing
#   make release            makes release/ anew of what was proved and built here
#   make fmt                lays out the sources: of one crate with C=, else of all
#   make bench              what five scripts cost
#   make docs               draws the tables, links and pictures that scripts draw
#   make library            prints the folder of the C library, as built here or else in release/; and builds the extension
#                           for Python. LQ_BUILD=always make library proves it
#   make install            copies the program, its manual page and the library to PREFIX: /usr/local
#   make install-program    copies the program and its manual page alone
#   make install-c          copies the C library alone: the headers, both libraries, and what pkg-config reads
#   make wheel              the Python package with the library inside, in dist
#   make dist               the program and the C library as a tarball, in dist
PREFIX ?= /usr/local
LIBDIR ?= $(PREFIX)/lib
PYTHON_DIR ?= $(LIBDIR)/yazgoulm
COMPLETIONS = $(PREFIX)/share/bash-completion/completions
VERSION = $(shell sed -n 's/^.define LQ_VERSION_TEXT "\(.*\)"$$/\1/p' include/lq.h)
SONAME = $(shell tools/soname)
S ?= examples/first-message.jsonl
W ?= run
CRATE = $(if $(C),crates/$(C),$(error C=CRATE is missing, as in make $@ C=lq_desk))

.PHONY: all quick try check test crate-test edits scenario scenarios gate release fmt bench docs library wheel dist \
	install install-program install-library install-c install-python

all:
	tools/build
quick:
	@.ci/quick $(SINCE)
try:
	./try $(S) $(W)
check:
	cd $(CRATE) && rt check
test:
	@.ci/test
crate-test:
	cd $(CRATE) && rt test
edits:
	rt must-fail $(notdir $(CRATE))
scenario:
	.ci/scenarios $(if $(N),$(N),$(error N=NAME is missing, as in make scenario N=clobber))
scenarios:
	.ci/scenarios
gate:
	.ci/run
release:
	tools/release
fmt:
	for crate in $(if $(C),crates/$(C),crates/*); do (cd $$crate && rt fmt) || exit 1; done
bench:
	bench/run
docs:
	tools/crate-table --write && tools/test-figures --write && tools/audit --write && tools/api --write && \
		tools/commands --write && bench/plots
library:
	@tools/take library
	@tools/python_package.py extension || [ $$? = 77 ]
install: install-program install-library
install-program:
	program=$$(tools/take program) && install -D -m 755 "$$program" $(DESTDIR)$(PREFIX)/bin/lq
	install -D -m 644 docs/lq.1 $(DESTDIR)$(PREFIX)/share/man/man1/lq.1
install-library: install-c install-python
install-c:
	install -d $(DESTDIR)$(PREFIX)/include
	install -m 644 include/lq.h include/lq_folder.h include/lq_journal.h $(DESTDIR)$(PREFIX)/include
	folder=$$(tools/take library) && install -D -m 644 "$$folder/liblq.a" $(DESTDIR)$(LIBDIR)/liblq.a && \
		install -m 755 "$$folder/$(SONAME)" $(DESTDIR)$(LIBDIR)/$(SONAME)
	ln -sf $(SONAME) $(DESTDIR)$(LIBDIR)/liblq.so
	install -d $(DESTDIR)$(LIBDIR)/pkgconfig
	sed 's|@PREFIX@|$(PREFIX)|; s|@LIBDIR@|$(LIBDIR)|; s|@VERSION@|$(VERSION)|' tools/lq.pc \
		> $(DESTDIR)$(LIBDIR)/pkgconfig/lq.pc
install-python: library
	install -d $(DESTDIR)$(PYTHON_DIR)/yazgoulm/folder/page
	install -m 644 $(wildcard python/yazgoulm/*.py) python/yazgoulm/py.typed $(DESTDIR)$(PYTHON_DIR)/yazgoulm
	install -m 644 $(wildcard python/yazgoulm/folder/*.py) $(DESTDIR)$(PYTHON_DIR)/yazgoulm/folder
	install -m 644 $(wildcard python/yazgoulm/folder/page/*) $(DESTDIR)$(PYTHON_DIR)/yazgoulm/folder/page
	for each in python/yazgoulm/_native*.so; do \
		[ ! -f "$$each" ] || install -m 755 "$$each" $(DESTDIR)$(PYTHON_DIR)/yazgoulm || exit 1; \
	done
	install -d $(DESTDIR)$(PREFIX)/bin
	tools/python_package.py commands $(DESTDIR)$(PREFIX)/bin $(PYTHON_DIR)
	install -d $(DESTDIR)$(PREFIX)/share/man/man1 $(DESTDIR)$(COMPLETIONS)
	install -m 644 $(wildcard docs/yazgoulm-*.1) $(DESTDIR)$(PREFIX)/share/man/man1
	for each in $(patsubst docs/%.1,%,$(wildcard docs/yazgoulm-*.1)); do \
		install -m 644 docs/completion.bash $(DESTDIR)$(COMPLETIONS)/$$each || exit 1; \
	done
wheel:
	tools/python_package.py wheel dist
dist:
	tools/dist dist
