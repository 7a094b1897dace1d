# make run      proves and builds the program, makes the Ninja files of the example project, builds that, and runs what was built
# make test     the whole gate
# make try      lists the targets of a tree with no proof, in a minute or two: TREE=FOLDER names another one than examples/tools
# make install  puts the proved program under PREFIX/bin
#
# `run` and `test` say which crate is begun and which is proved, with the time so far. What the toolchain prints is kept whole
# in out/run.log and out/test.log.
PREFIX ?= /usr/local
GN := $(CURDIR)/crates/gn/out/gn
PROGRESS := python3 $(CURDIR)/tools/progress.py

TREE ?= examples/tools

.PHONY: run test try install build toolchain

# What builds the example is asked for before the program is proved, since that takes long.
run: toolchain
	@for each in ninja gcc g++; do \
	  command -v $$each >/dev/null 2>&1 || { echo "make: the example is built by ninja, gcc and g++, and '$$each' is missing" >&2; exit 1; }; \
	done
	@$(MAKE) --no-print-directory build
	cd examples/hello && $(GN) gen out && ninja -C out && out/hello

test: toolchain
	@mkdir -p out
	@$(PROGRESS) --log out/test.log bash .ci/run

# `rt try` runs the program in a new folder, into which it copies each file that is named; it keeps nothing.
try: toolchain
	@files=$$(cd '$(TREE)' && find . \( -name '*.gn' -o -name '*.gni' \) -type f -printf ' --data %P=$(abspath $(TREE))/%P'); \
	echo "make: compiles the program with no proof and runs it over $(TREE): a minute or two" >&2; \
	cd crates/gn && rt try $$files -- ls out

install: build
	install -d $(DESTDIR)$(PREFIX)/bin
	install -m 755 $(GN) $(DESTDIR)$(PREFIX)/bin/gn

# `rt run` proves and links the program before it runs it; without words that says its usage line.
build: toolchain
	@mkdir -p out
	@cd crates/gn && $(PROGRESS) --log $(CURDIR)/out/run.log --ends 'usage: gn ' rt run >&2 \
	|| { echo "make: the program isn't proved and built" >&2; exit 1; }

toolchain:
	@command -v rt >/dev/null 2>&1 || { echo "make: the Rattle toolchain's command 'rt' is not on the PATH: install it, then run make again" >&2; exit 1; }
