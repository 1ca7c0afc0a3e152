# The quick start and the gate.
RT ?= rt

.PHONY: run build proved try lib lib-try postgres postgres-try man install uninstall dist test

# Runs the sample, by the proved program where it is built and else by the unproved one, which is built first in three minutes.
run:
	@RT="$(RT)" sh tools/run_sample.sh

# Builds the program without its proofs, in three minutes, and leaves it as out/segdag.
build:
	@RT="$(RT)" sh tools/build_unproved.sh

# Proves the program and the crates below it, builds it as crates/segdag/out/segdag and runs it on the sample, over a new log: some hours of
# processor time the first time. Later only what changed is proved.
proved:
	cd crates/segdag && rm -f out/log && $(RT) run -- out/log -- run < stdin
	@mkdir -p out && sh packaging/sums.sh > out/proved

# Runs the program on the sample without its proofs under the address sanitizer, and keeps nothing: `proved=no` stands in the last line.
try:
	cd crates/segdag && $(RT) try -- log -- run < stdin

# The C library, proved: out/libsegdag.a, out/libsegdag.so and their headers (docs/CLIB.md), and what is built over it: the quick front of
# `git segdag`, and segdagd-many, the server of many logs.
lib:
	cd crates/segdag_c && $(RT) lib
	RT="$(RT)" sh tools/build_library.sh crates/segdag_c/out/libsegdag_c.a
	sh tools/build_front.sh
	sh tools/segdagd_build.sh out
	sh packaging/sums.sh > out/libsegdag.proved

# The same without its proofs, in three minutes.
lib-try:
	RT="$(RT)" sh tools/build_library_unproved.sh
	sh tools/build_front.sh
	sh tools/segdagd_build.sh out

# Logs in PostgreSQL (docs/POSTGRES.md), over the proved core: segdag-postgres, libsegdag_postgres.a and .so, and segdagd-many-postgres. They
# want libpq-dev.
postgres:
	cd crates/segdag_c && $(RT) lib
	RT="$(RT)" sh tools/build_postgres.sh crates/segdag_c/out/libsegdag_c.a
	sh tools/segdagd_build.sh out postgres
	sh packaging/sums.sh > out/libsegdag_postgres.proved

# The same without its proofs, in three minutes.
postgres-try:
	RT="$(RT)" SHIM=tools/build_postgres.sh sh tools/build_library_unproved.sh
	sh tools/segdagd_build.sh out postgres

# Man pages, by pandoc, and the licences of what is linked in from the kit.
man:
	@python3 packaging/man.py out/man
	@RT="$(RT)" sh packaging/notices.sh > out/NOTICES

# What was built, below PREFIX, and below DESTDIR where a package is made. Behind `make run lib-try man`, or `make proved lib man`; and behind
# `make postgres-try` or `make postgres`, where logs in PostgreSQL are wanted too.
PREFIX ?= /usr/local
WHERE = --prefix "$(PREFIX)" --destdir "$(DESTDIR)" $(if $(LIBDIR),--libdir "$(LIBDIR)") $(if $(PYTHONDIR),--pythondir "$(PYTHONDIR)")
install:
	@python3 packaging/install.py install $(WHERE)

uninstall:
	@python3 packaging/install.py uninstall $(WHERE)

# A tarball, Debian packages, a Python wheel and a statement of what was proved, in out/dist, of what was built (docs/RELEASES.md).
dist: man
	@RT="$(RT)" python3 packaging/dist.py

# The gate: each proof, each must-fail edit, each test and each program; hours from nothing (docs/PROVING.md, "Gates"). Behind it
# what no contract can say of the compiler, of the built program and of the documents, in some ten minutes. The first failure ends it.
# A script whose tool is missing is skipped, which is told at the end; with SEGDAG_NO_SKIP=1 that is a failure.
test: export SKIPPED = $(CURDIR)/tests/out/skipped
test:
	$(RT) ci
	@mkdir -p out && sh packaging/sums.sh > out/gate
	@mkdir -p tests/out && : > "$(SKIPPED)"
	RT="$(RT)" sh tests/must_not_compile.sh
	sh tests/types.sh
	sh tests/words.sh
	sh tests/random_runs.sh
	sh tests/whole_runs.sh
	sh tests/real_files.sh
	sh tests/edges.sh
	sh tests/beside.sh
	sh tests/daemon.sh
	RT="$(RT)" sh tests/daemon_many.sh
	sh tests/format.sh
	sh tests/damaged.sh
	sh tests/no_memory.sh
	RT="$(RT)" sh tests/clib.sh
	sh tests/serve.sh
	sh tests/pipes.sh
	sh tests/guide.sh
	RT="$(RT)" sh tests/postgres.sh
	RT="$(RT)" sh tests/install.sh
	sh tests/pages.sh
	@sh tests/skips.sh
