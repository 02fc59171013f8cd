# Builds, checks, installs and packs dgnedit. `make help` lists what there is.

PREFIX  = /usr/local
PROGRAM = crates/dgnedit/out/dgnedit

ROOT = $(DESTDIR)$(PREFIX)

.PHONY: build check examples install uninstall lib web card manual dist clean help

build:          ## proves and builds the program, where it isn't built or a source is newer
	@./dgnedit --build

check:          ## proves everything, tries the planted bugs, runs the tests and the examples of the documents
	.ci/run

examples: build ## runs every example of the documents on the program
	tools/run_examples

install: build  ## installs the program, the companion dgnkit, man pages and documents below PREFIX (/usr/local)
	tools/install $(PROGRAM) "$(ROOT)"

uninstall:      ## removes what install has installed
	tools/install --remove "$(ROOT)"

lib:            ## makes the library for C: dist/libdgnedit.a and dist/dgnedit.h
	tools/make_library lib dist

web: manual     ## makes the editor in a browser: dist/dgnedit.html, with the program in it as dist/dgnedit.wasm, and the manual
	tools/make_library web dist
	tools/make_app

card:           ## makes the quick card of all commands, which prints on two pages: dist/dgnedit-card.html
	tools/make_card

manual:         ## makes the manual, all pages for users as one to search in: dist/dgnedit-manual.html
	tools/make_manual

dist: build lib web card ## makes dist/: archives, Debian packages, wheels for pip, the editor in a browser, and SHA256SUMS
	tools/make_program x86_64 aarch64 windows dist
	tools/make_library dll dist
	tools/make_dist dist
	tools/make_wheel dist
	tools/make_qgis dist
	cd dist && find . -maxdepth 1 -type f ! -name SHA256SUMS -printf '%P\n' | LC_ALL=C sort | xargs sha256sum >SHA256SUMS

clean:          ## removes what was built here
	rm -rf dist crates/*/out

help:           ## lists this
	@sed -n 's/^\([a-z]*\):[^#]*## /\1	/p' Makefile | expand -t 12
