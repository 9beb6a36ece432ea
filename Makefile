# rt is the toolchain's one command; crates/*/out is made by it. build/ is what C and Python programs take.
# A step that takes minutes says on stderr what it does, so that a program's output stays by itself.
.PHONY: test run jumps rig shared example install speed others fmt

CFLAGS ?= -O2
PREFIX ?= /usr/local

C99 = $(CC) -std=c99 -Wall -Wextra -Wpedantic -Werror $(CFLAGS) -Ibuild
CXX11 = $(CXX) -std=c++11 -Wall -Wextra -Wpedantic -Werror -Ibuild

# The gate: layout, every proof, every must-fail edit and every program; then the library with the examples in C and
# Python. It fails where an edit is not refused or cannot be tried. What has not changed since it passed on the machine
# is not proved again. The verdict of the proofs, 'N passed, 0 failed', is its last line.
test:
	@mkdir -p build target
	@echo "proving every crate and trying every edit that must be refused, where they have changed" >&2
	@{ rt ci; echo $$? >build/ci.status; } | tee build/ci.log
	@test "$$(cat build/ci.status)" = 0
	@grep -q '^rt: ok' build/ci.log
	@! grep '^rt: ok.*, [1-9][0-9]* bad' build/ci.log
	@if command -v $(firstword $(CC)) >/dev/null; then \
	    echo "building the library and running the examples: see target/rig.log, target/example.log" >&2; \
	    $(MAKE) --no-print-directory example >target/example.log 2>&1 || { cat target/example.log; exit 1; }; \
	else \
	    echo "no C compiler is found ($(CC)): the examples are left out"; \
	fi
	@tail -n 1 build/ci.log

# Proves and builds the bench program, and runs it.
run:
	@mkdir -p target
	@echo "proving and building the bench, some minutes the first time: see target/run.log" >&2
	@cd crates/bench && rt run -- $$(sed 's|^|data/|' args) 2>../../target/run.log || \
	  { cat ../../target/run.log >&2; exit 1; }

# Prints the machine code of the primitives that have to be without a branch, and fails on a jump in it.
jumps:
	@tools/jumps

# Proves the calls for C and builds them: build/libremus.a, its header and its pkg-config file.
rig:
	@mkdir -p target build
	@echo "proving and building the library for C, some minutes the first time: see target/rig.log" >&2
	@cd crates/rig && rt lib >../../target/rig.log 2>&1 || { cat ../../target/rig.log; exit 1; }
	@cp crates/rig/out/librig.a build/libremus.a
	@cp include/remus.h build/remus.h
	@sed 's|@PREFIX@|$(abspath $(PREFIX))|' remus.pc.in >build/remus.pc

# The same calls for Python: build/libremus.so.
shared: rig
	@$(CC) -shared -o build/libremus.so -Wl,--whole-archive build/libremus.a -Wl,--no-whole-archive

# Builds and runs the examples: the program of README.md has to print what stands below it there, rig.c and rig.py
# examples/rig.out, and no vector may differ.
example: rig shared
	@sed -n '/^```c$$/,/^```$$/{/^```/!p}' README.md >build/worn.c
	@sed -n '/^```output$$/,/^```$$/{/^```/!p}' README.md >build/worn.expected
	@$(C99) build/worn.c build/libremus.a -o build/worn
	@build/worn >build/worn.out
	@diff -u build/worn.expected build/worn.out
	@echo "the program of README.md prints what stands there"
	@$(C99) examples/rig.c build/libremus.a -o build/rig
	@build/rig >build/rig.out
	@diff -u examples/rig.out build/rig.out
	@cat build/rig.out
	@$(C99) examples/vectors.c build/libremus.a -o build/vectors
	@build/vectors crates/bench/data/*_vectors examples/lengths.txt
	@if command -v $(firstword $(CXX)) >/dev/null; then \
	    echo '#include <remus.h>' | $(CXX11) -fsyntax-only -x c++ - && echo "remus.h compiles as C++"; \
	else \
	    echo "no C++ compiler is found ($(CXX)): the header is tried as C alone"; \
	fi
	@if command -v python3 >/dev/null; then \
	    python3 examples/rig.py >build/rig.py.out && diff -u examples/rig.out build/rig.py.out \
	        && echo "rig.py prints the same"; \
	else \
	    echo "no python3 is found: examples/rig.py is left out"; \
	fi

# Copies library, header and pkg-config file to lib, include and lib/pkgconfig of PREFIX.
install: rig
	@install -d $(DESTDIR)$(PREFIX)/include $(DESTDIR)$(PREFIX)/lib/pkgconfig
	@install -m 644 build/remus.h $(DESTDIR)$(PREFIX)/include
	@install -m 644 build/libremus.a $(DESTDIR)$(PREFIX)/lib
	@install -m 644 build/remus.pc $(DESTDIR)$(PREFIX)/lib/pkgconfig

# Prints what a call costs beside hand-written C, the tables of docs/PERFORMANCE.md (speed/README.md).
# SPEED has the arguments: quick, tsv, runs N.
SPEED = runs 7
speed: rig
	@$(MAKE) -s build/speed/speed
	@build/speed/speed $(SPEED)

# The same for four rules in the machine and in Lua, LuaJIT and Duktape, where those are installed.
others: rig
	@pkg-config --exists lua5.4 luajit duktape || \
	  { echo "others: needs pkg-config, liblua5.4-dev, libluajit-5.1-dev, duktape-dev"; exit 1; }
	@$(MAKE) -s build/speed/others
	@build/speed/others $(SPEED)

fmt:
	@for c in $$(sed -n 's/^\([a-z_]*\).*:.*/\1/p' crates.txt); do (cd crates/$$c && rt fmt) || exit 1; done

include speed/build.mk
