PREFIX ?= /usr/local
# Words of the command line alone: in an environment these names may mean something else.
TARGET :=
CPU :=
BINDIR := $(PREFIX)/bin
INCLUDEDIR := $(PREFIX)/include
LIBDIR := $(PREFIX)/lib
MANDIR := $(PREFIX)/share/man
TO_BIN = $(DESTDIR)$(BINDIR)
TO_INCLUDE = $(DESTDIR)$(INCLUDEDIR)
TO_LIB = $(DESTDIR)$(LIBDIR)
TO_MAN = $(DESTDIR)$(MANDIR)/man1
# Where build.sh of the C library puts what it builds.
C_OUT := bindings/c/out$(if $(TARGET)$(CPU),/$(TARGET)$(if $(TARGET),$(if $(CPU),-))$(CPU))
PROGRAM := crates/i_shape_tool_main/out/$(if $(TARGET)$(CPU),$(TARGET)$(CPU)/i_shape_tool,i_shape_tool_main)

.PHONY: test gate help check check-c fmt program c wasm page wheel postgres sqlite dist site pictures install install-program install-c install-postgres install-sqlite uninstall uninstall-program uninstall-c uninstall-postgres uninstall-sqlite clean

# The tests of behaviour, without a proof, by cargo. What isn't built is skipped.
test:
	@python3 .ci/parts.py test

# The whole gate: proves everything, runs all tests, tries the mutants, and makes each allocation fail. docs/develop/README.md says more.
gate:
	@python3 .ci/parts.py gate

# These lines.
help:
	@awk -F: '/^# / { told = substr($$0, 3); next } told && /^[a-z-]+:/ { printf "make %-15s %s\n", $$1, told } { told = "" }' Makefile

# Checks each crate, over the work that earlier checks kept.
check:
	rt all check

# Compares what the calls of the C library, as it is built here, return and write with the hashes of the proved one.
check-c: c
	@mkdir -p bindings/c/out
	@$(CC) -std=c11 -O2 -Iinclude bindings/c/check/hashes.c $(C_OUT)/libi_shape.a -o bindings/c/out/hashes
	@bindings/c/out/hashes -c bindings/c/check/hashes.txt

# Formats each crate.
fmt:
	@for crate in crates/*/; do (cd $$crate && rt fmt) || exit 1; done

# Proves and builds the program, in crates/i_shape_tool_main/out; with TARGET=aarch64 or CPU=x86-64 in the folder of that name below it.
program:
	@bash scripts/program/build.sh $(if $(TARGET),--target $(TARGET)) $(if $(CPU),--cpu $(CPU))

# The C library, in bindings/c/out; with TARGET=aarch64, TARGET=windows (an experiment) or CPU=x86-64 in the folder of that name below it.
c:
	@bash bindings/c/build.sh $(if $(TARGET),--target $(TARGET)) $(if $(CPU),--cpu $(CPU))

# The WebAssembly module of the package for JavaScript, in bindings/js/out: by cargo, with Rust for wasm32-unknown-unknown or Debian's sources of it.
wasm:
	@bash bindings/js/build.sh

# The page to try the calls on, in examples/page/out: any file server shows it.
page: wasm
	@sh examples/page/build.sh
	@echo 'python3 -m http.server --directory examples/page/out shows it at http://localhost:8000/'

# The wheel of the Python package, in bindings/python/out, by Debian's Python or another PYTHON=.., over the C library or that of the folder I_SHAPE_C_DIR.
wheel: $(if $(I_SHAPE_C_DIR),,c)
	@sh bindings/python/build.sh

# The extension of PostgreSQL, in bindings/postgres/out, for the server of pg_config or another PG_CONFIG=.., over the C library or that of the folder I_SHAPE_C_DIR; it takes CPU=x86-64 too.
postgres: $(if $(I_SHAPE_C_DIR),,c)
	@rm -rf bindings/postgres/out
	@mkdir -p bindings/postgres/out
	@$(MAKE) -s -C bindings/postgres/out -f ../Makefile I_SHAPE_C_DIR=$(abspath $(or $(I_SHAPE_C_DIR),$(C_OUT)))

# The extension of SQLite, bindings/sqlite/out/mod_i_shape.so, over the C library or that of the folder I_SHAPE_C_DIR; it takes CPU=x86-64 too.
sqlite: $(if $(I_SHAPE_C_DIR),,c)
	@rm -rf bindings/sqlite/out
	@$(MAKE) -s -f bindings/sqlite/Makefile I_SHAPE_C_DIR=$(abspath $(or $(I_SHAPE_C_DIR),$(C_OUT)))

# What a release holds, in dist: docs/develop/README.md says what that is.
dist:
	@rm -rf dist
	@bash scripts/dist.sh dist
	@cat dist/SHA256SUMS

# The pages and a reference of the packages as HTML, in docs/out: scripts/site.sh says what it needs.
site:
	@bash scripts/site.sh

# The pictures of docs/pictures, by the program.
pictures: program
	@examples/draw/draw_all.sh docs/pictures

# Installs the program and the C library below PREFIX, /usr/local where none is given, or in BINDIR, INCLUDEDIR, LIBDIR and MANDIR.
install: install-program install-c

# Installs the program alone, with its man page.
install-program: program
	install -d "$(TO_BIN)" "$(TO_MAN)"
	install -m 755 $(PROGRAM) "$(TO_BIN)/i_shape_tool"
	sed "s|@VERSION@|$$(scripts/version.sh)|" scripts/program/i_shape_tool.1.in > "$(TO_MAN)/i_shape_tool.1"
	chmod 644 "$(TO_MAN)/i_shape_tool.1"

# Installs the C library alone.
install-c: c
	$(if $(filter windows,$(TARGET)),$(error install-c takes no TARGET=windows: bindings/c/out/windows has what make c has built))
	install -d "$(TO_INCLUDE)" "$(TO_LIB)/pkgconfig" "$(TO_LIB)/cmake/i_shape"
	install -m 644 include/i_shape.h include/i_shape.hpp "$(TO_INCLUDE)"
	install -m 644 $(C_OUT)/libi_shape.a "$(TO_LIB)"
	cp -P --remove-destination $(C_OUT)/libi_shape.so* "$(TO_LIB)"
	sed 's|@PREFIX@|$(PREFIX)|; s|@INCLUDEDIR@|$(INCLUDEDIR)|; s|@LIBDIR@|$(LIBDIR)|' $(C_OUT)/i_shape.pc.in > "$(TO_LIB)/pkgconfig/i_shape.pc"
	install -m 644 bindings/c/cmake/*.cmake $(C_OUT)/i_shape-config-version.cmake "$(TO_LIB)/cmake/i_shape"
	sed "s|@HEADERS@|$$(realpath -ms --relative-to='$(LIBDIR)' '$(INCLUDEDIR)')|" bindings/c/cmake/i_shape-config.cmake.in > "$(TO_LIB)/cmake/i_shape/i_shape-config.cmake"
	chmod 755 "$(TO_LIB)/libi_shape.so"
	chmod 644 "$(TO_LIB)/pkgconfig/i_shape.pc" "$(TO_LIB)/cmake/i_shape/i_shape-config.cmake"

# Removes what install has put there, by the same words; of the shared library each version.
uninstall: uninstall-program uninstall-c

# Removes the program alone.
uninstall-program:
	rm -f "$(TO_BIN)/i_shape_tool" "$(TO_MAN)/i_shape_tool.1"

# Removes the C library alone.
uninstall-c:
	rm -f "$(TO_INCLUDE)/i_shape.h" "$(TO_INCLUDE)/i_shape.hpp" "$(TO_LIB)/libi_shape.a" "$(TO_LIB)"/libi_shape.so* "$(TO_LIB)/pkgconfig/i_shape.pc"
	rm -rf "$(TO_LIB)/cmake/i_shape"

# Installs the extension of PostgreSQL, as `make postgres` has built it, into that server.
install-postgres: $(if $(I_SHAPE_C_DIR),,c) | $(filter postgres,$(MAKECMDGOALS))
	@mkdir -p bindings/postgres/out
	@$(MAKE) -s -C bindings/postgres/out -f ../Makefile I_SHAPE_C_DIR=$(abspath $(or $(I_SHAPE_C_DIR),$(C_OUT))) install

# Installs the extension of SQLite, as `make sqlite` has built it, below PREFIX or in LIBDIR.
install-sqlite: $(if $(I_SHAPE_C_DIR),,c) | $(filter sqlite,$(MAKECMDGOALS))
	@$(MAKE) -s -f bindings/sqlite/Makefile I_SHAPE_C_DIR=$(abspath $(or $(I_SHAPE_C_DIR),$(C_OUT))) LIBDIR=$(LIBDIR) install

# Removes the extension of PostgreSQL from that server, whose databases have dropped it.
uninstall-postgres:
	@mkdir -p bindings/postgres/out
	@$(MAKE) -s -C bindings/postgres/out -f ../Makefile uninstall

# Removes the extension of SQLite.
uninstall-sqlite:
	rm -f "$(TO_LIB)/mod_i_shape.so"

# Removes what is built and the kept work of the proofs.
clean:
	rm -rf crates/*/out bindings/c/out bindings/js/out bindings/postgres/out bindings/python/out bindings/sqlite/out rust/target docs/out docs/plots examples/page/out dist
