# `make run` shows the main job and `make quick` any other, with no proof; `make build` proves and builds the program, `make lib` the
# library for C, `make test` is the whole gate, `make trials` tries what is built, `make rows` some of the program's rows.

RT := rt

# How many crates, or edits of one, are proved side by side: one a processor, at most four. Each takes 1 to 4 GB.
JOBS := $(shell n=$$(nproc 2>/dev/null || echo 1); [ "$$n" -lt 4 ] || n=4; echo $$n)

.PHONY: run quick build lib install uninstall deb test trials rows edits edits-apply assessment

# Decodes one word, with no proof: about a minute from a fresh clone.
run:
	@cd crates/dc429 && $(RT) try -- decode bnr < stdin

# Any command on any files, with no proof: make quick ARGS="check examples/small.toml examples/small-certificate.json". Standard
# input is the command's, as in: make quick ARGS="replay examples/small.toml --all" < examples/small.trace
quick:
	@RT=$(RT) scripts/quick $(ARGS)

# The proved program, at build/dc429: first the libraries that it stands on, side by side.
build:
	@mkdir -p build
	@RT=$(RT) scripts/lanes --jobs $(JOBS) --below dc429
	@cd crates/dc429 && $(RT) run -- decode bnr < stdin
	@cp crates/dc429/out/dc429 build/dc429
	@echo "built build/dc429"

# The proved library for C, at build/libdc429.a, build/libdc429.so and build/dc429.pc (docs/embedding.md); with TARGET=aarch64 the
# archive for that machine alone, at build/aarch64/libdc429.a.
lib:
	@RT=$(RT) scripts/library $(TARGET)

# Puts what is built, and the texts, below a folder: make install PREFIX=.., and with DESTDIR=.. below that one. The program must
# print the version of the sources, and gives its man pages and completions. What is not built is said.
to = $(DESTDIR)$(PREFIX)

install:
	@[ -n "$(PREFIX)" ] || { echo "say where to, as make install PREFIX=.."; exit 1; }
	@[ -e build/dc429 ] || [ -e build/libdc429.a ] || { echo "nothing is built: make build, make lib"; exit 1; }
	@if [ -e build/dc429 ]; then scripts/version build/dc429 && install -D -t "$(to)/bin" build/dc429; \
	    else echo "not installed: the program, which make build makes"; fi
	@if [ -e build/libdc429.a ]; then install -D -m 644 -t "$(to)/include" include/dc429.h && \
	    install -D -m 644 -t "$(to)/lib" build/libdc429.a && install -D -m 644 -t "$(to)/lib/pkgconfig" build/dc429.pc && \
	    sed -i -e 's,^libdir=.*,libdir=$${pcfiledir}/..,' -e 's,^includedir=.*,includedir=$${pcfiledir}/../../include,' \
	        "$(to)/lib/pkgconfig/dc429.pc"; \
	    else echo "not installed: the library, which make lib makes"; fi
	@for it in build/libdc429.so.*; do if [ -e "$$it" ]; then install -D -m 755 "$$it" "$(to)/lib/$${it##*/}" && \
	    ln -sf "$${it##*/}" "$(to)/lib/libdc429.so"; else echo "not installed: libdc429.so, which make lib makes where there is cc"; fi; done
	@install -D -m 644 -t "$(to)/share/doc/dc429" README.md CHANGELOG.md LICENSE-MIT LICENSE-APACHE docs/formats.md docs/embedding.md
	@[ ! -e build/dc429 ] || scripts/manual build/dc429 "$(to)/share"

# Takes away what `make install` put below that folder.
uninstall:
	@[ -n "$(PREFIX)" ] || { echo "say where from, as make uninstall PREFIX=.."; exit 1; }
	@scripts/uninstall "$(to)"

# The same files as a package, build/dc429_<version>_<architecture>.deb.
deb:
	@scripts/package

test:
	@$(RT) ci

# The built program on the rows of rows/, on texts and captures by chance and of the largest sizes, joint runs of networks by chance,
# on the commands of docs/recordings.md, of docs/networks.md and of the tutorial, on the template as it may be filled in, at its edges,
# under refused memory and failing devices; the library for C beside it; what is installed and packed, in a folder of its own; the
# instructions of the benchmark's workloads: some minutes, no proof where the library is built. With EMBED=where-changed, as in .ci/run,
# the library is not tried where its sources are as they were tried last.
trials: $(addprefix try-,rows explained chance timed networks recordings recorded designs crowds largest audits edges hostile pages printed refused embed tutorial template installed pace)

try-%:
	@scripts/$*

try-embed: $(if $(EMBED),,build/libdc429.a)
	@scripts/embed $(EMBED)

build/libdc429.a:
	@RT=$(RT) scripts/library

# The explanations, and that with them each row answers as without.
try-explained:
	@scripts/explained
	@scripts/rows --explain always
	@scripts/rows --explain never

# The built program on the rows of rows/ whose file or name has a word, as make rows ONLY=replay; with no word on all. No proof.
# With QUICK=1 the program is not wanted: those that differ by their standard input alone run with no proof, by one build for each
# such group.
# With EXPLAIN=always or never each is run with --explain too, which may change neither what it prints nor its status.
rows:
	@RT=$(RT) scripts/rows $(if $(ONLY),--only '$(ONLY)') $(if $(EXPLAIN),--explain '$(EXPLAIN)') $(if $(QUICK),--quick)

# The edits outside the gate whose line of edits/tried.tsv is not fresh, of one crate or of all: the prover must refuse each.
edits:
	@scripts/edits --jobs $(JOBS) $(CRATE)

# Whether each edit, in the gate and outside, still applies: a second, no proof.
edits-apply:
	@scripts/edits_apply.py $(CRATE)

# What an assessor compares, in build/assessment/index.txt: sums of what is built, functions proved, last lines of the last gate. With
# AGAIN=1 the program is built once more from a fresh clone, and its sum stands beside the first.
assessment:
	@scripts/assessment $(if $(AGAIN),--again)
