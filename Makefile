# Each target is one line; the work is done by the toolchain's command rt, and by tools/.
.PHONY: try run test mutants examples fmt check libpdt door docs install uninstall bench soak fuzz

# compiles the program from source and runs it on its example, unproved: a look
try:
	@echo "compiling the program from source, unproved: two to four minutes of silence, then its output"
	cd crates/pdt && rt try -- run data/table.csv data/script.csv

# proves and builds the program, and runs its example
run:
	cd crates/pdt && rt run -- run data/table.csv data/script.csv

# the gate: formatting, the names in the documents and other quick checks; every proof from nothing and the must-fail edits; the mutants of
# the crates that have changed; then what runs: the program's examples and kills, and the tests of the bindings. RT_JOBS checks go on at a
# time, each on one processor: else one for each processor, as far as memory holds
test:
	tools/gate

# tries every mutant, and writes mutants.verified; make mutants ONLY=changed tries those of the crates that differ from it
mutants:
	tools/mutants $(ONLY)

# each example and case through the program as `make run` proves and builds it, against its replies
examples: run
	examples/check

# lays out all sources: those of the crates by the toolchain, the others by the formatters that CONTRIBUTING names
fmt:
	for crate in crates/*/; do (cd $$crate && rt fmt); done
	tools/lint --fix

# looks at the layout of C, Python and Rust, and has the linters read Rust and shell
.PHONY: lint
lint:
	tools/lint

# proves one crate while you write: make check CRATE=delta
check:
	cd crates/$(CRATE) && rt check

# the C library: proves crates/pdt_c, and builds a static and a shared library from it in libpdt/out
libpdt:
	tools/library && $(MAKE) -C libpdt

# what it was called before 0.3
door: libpdt

# builds the reference of C, Rust and Python, and the pages of docs as a site, into out/docs; it needs no library, and names a tool that
# isn't there: doxygen, cargo, or Sphinx with myst-parser and numpydoc
docs:
	tools/docs

# installs the header, both libraries, what pkg-config and CMake read, and the extension of SQLite where it is built:
# make install PREFIX=/usr/local LIBDIR=/usr/local/lib INCLUDEDIR=/usr/local/include DESTDIR=
install: libpdt
	$(MAKE) -C libpdt install && $(MAKE) -C bindings/sqlite install

# takes it away, for the same PREFIX, LIBDIR, INCLUDEDIR and DESTDIR
uninstall:
	$(MAKE) -C libpdt uninstall && $(MAKE) -C bindings/sqlite uninstall

# packs what `make test` has proved and built into dist/: the C library, the package for Python, the extension of SQLite, and their
# checksums. make release DRAFT=--draft packs what `make libpdt` has built, whether or not the gate has passed
.PHONY: release
release:
	tools/release $(DRAFT)

# measures the library, also through its bindings, beside plain Rust, SQLite and numpy, into bench/out: make bench BENCH="--only scans".
# It needs cargo and libsqlite3-dev, numpy and matplotlib of /usr/bin/python3; it names what isn't there, and leaves it out
bench: libpdt
	bench/measure $(BENCH)

# has a database run unattended, with kills, and checks it meanwhile: make soak MINUTES=60
soak: libpdt
	tools/soak $(MINUTES)

# draws calls beside models in C, Python and SQL, from new seeds: make fuzz MINUTES=10
fuzz: libpdt
	tools/fuzz $(MINUTES)
