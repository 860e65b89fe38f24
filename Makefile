.PHONY: tool install-tool install-libraries run test archive container install dist wheel bench-python queue-faults load refuse mutate compare compare-long bench memcheck fuzz frames picture sheet bench-tool soak fmt fuzz-container hour landings site

archive = target/staticlib/librazvolk.a
shared = target/staticlib/librazvolk.so.0
container = rust/target/made/librazvolk_srw.so.0
cargo_run = cd rust && cargo run --release --offline --locked
made = rust/target/made
# What proves ends here without the toolchain.
need_rt = @command -v rt >/dev/null || { echo 'rt, the Rattle toolchain, is not installed. A release needs none: README.md, "A release".' >&2; exit 1; }

# The main job: proves and builds the program, and decodes the example with it.
run:
	$(need_rt)
	@echo 'Proving what is not proved yet: some minutes the first time, and a line for each crate.'
	@tests/rt-lines target/rt.log dist/program samrows
	target/bin/samrows < crates/samrows/stdin

# The gate.
test:
	$(need_rt)
	bash .ci/run

# The archive for C and Rust, and the shared library of it: proves what they are made of, and compiles it.
archive: $(archive) $(shared)

$(archive): crates.txt dist/archive $(shell find crates -name out -prune -o -type f -print)
	$(need_rt)
	@tests/rt-lines target/rt.log dist/archive

$(shared): $(archive) include/razvolk.h dist/shared
	dist/shared $(archive) include/razvolk.h $@

# The library that finds the frame in a camera's file, for C. It is in Rust: tested, and not proved.
container: $(container)

$(container): $(archive) $(shell find rust/src rust/container rust/Cargo.toml rust/build.rs -type f)
	cd rust && cargo build --quiet --offline --locked --profile container -p razvolk-srw --target-dir target
	install -D -m 644 rust/target/container/librazvolk_srw.so $@

# The tool with its man page and completions, headers, archive, shared libraries and pkg-config files below PREFIX; what is
# linked with goes to LIBDIR.
PREFIX = /usr/local
LIBDIR = $(PREFIX)/lib
install: install-tool install-libraries

install-libraries: $(archive) $(shared) $(container)
	for name in razvolk razvolk_srw; do \
		install -D -m 644 include/$$name.h $(DESTDIR)$(PREFIX)/include/$$name.h || exit 1; done
	for name in $(archive) $(shared) $(container); do \
		install -D -m 644 $$name $(DESTDIR)$(LIBDIR)/$$(basename $$name) || exit 1; done
	for name in razvolk razvolk-shared razvolk-srw; do \
		mkdir -p $(DESTDIR)$(LIBDIR)/pkgconfig && dist/pkg-config dist/$$name.pc $(PREFIX) $(LIBDIR) > \
			$(DESTDIR)$(LIBDIR)/pkgconfig/$$name.pc || exit 1; done

install-tool: tool
	install -D -m 755 $(tool) $(DESTDIR)$(PREFIX)/bin/razvolk
	install -D -m 644 $(made)/razvolk.1 $(DESTDIR)$(PREFIX)/share/man/man1/razvolk.1
	install -D -m 644 $(made)/completions/razvolk.bash $(DESTDIR)$(PREFIX)/share/bash-completion/completions/razvolk
	install -D -m 644 $(made)/completions/_razvolk $(DESTDIR)$(PREFIX)/share/zsh/site-functions/_razvolk
	install -D -m 644 $(made)/completions/razvolk.fish $(DESTDIR)$(PREFIX)/share/fish/vendor_completions.d/razvolk.fish

# The tool, its man page (by help2man, from what it says of itself) and its completions.
tool = rust/target/release/razvolk
tool: $(archive)
	CARGO_TARGET_DIR= tests/tool-cargo build --release --quiet --bin razvolk
	@command -v help2man >/dev/null || { echo 'help2man, which makes the man page, is not installed' >&2; exit 1; }
	mkdir -p $(made)/completions
	SOURCE_DATE_EPOCH=$$(git log -1 --format=%ct 2>/dev/null || echo 0) help2man --no-info --name 'tell which Samsung raw frames are clean' --output=$(made)/razvolk.1 $(tool)
	$(tool) --completions bash > $(made)/completions/razvolk.bash
	$(tool) --completions zsh > $(made)/completions/_razvolk
	$(tool) --completions fish > $(made)/completions/razvolk.fish

# A release, target/dist/razvolk-VERSION.tar.gz, which needs no Rattle toolchain.
dist: $(archive)
	dist/make

# The static site, target/site/index.html: rules, definitions, code and proofs, read out of sources and documents. It is opened
# as files, without a server.
site: $(shared)
	@command -v mkdocs >/dev/null && command -v dot >/dev/null || { echo 'mkdocs, mkdocs-material or graphviz is not installed (tests/setup)' >&2; exit 1; }
	PYTHONDONTWRITEBYTECODE=1 $(PYTHON) site/make.py target/site $(shared)

# The Python package, target/wheel/razvolk-VERSION-py3-none-manylinux*_x86_64.whl, with both shared libraries inside.
PYTHON = /usr/bin/python3
wheel: $(shared) $(container)
	PYTHON=$(PYTHON) dist/wheel target/wheel $(shared) $(container)

# The wheel in a fresh environment: what a call takes beside C's own, and two threads beside one.
bench-python: wheel
	PYTHON=$(PYTHON) python/bench/run $(made)/bench-python target/wheel/razvolk-*.whl

# The queue under faults with a broker of its own (docs/QUEUE.md): 3,000 jobs, other numbers of workers, a cluster of three, and wrong
# workers that must be found. Some sixteen minutes, and root, or a system that lets users have namespaces. SEED picks files, jobs and
# moments.
queue-faults: $(shared) $(container)
	SEED=$(SEED) PYTHON=$(PYTHON) tests/queue $(made)/queue-faults long one four cluster controls

# The queue under load: frames a second and latency by 1 and 2 workers, and a simulation that must agree with them (docs/SCALE.md).
# LOAD is a folder on the disk that is measured with it. ROWS are those to measure anew, of tiny-1 tiny-2 20MP-1 20MP-2.
LOAD = $(made)/load
ROWS =
load: wheel
	PYTHON=$(PYTHON) python/load/run $(LOAD) $(made)/load.json $(ROWS)

# Every wrong edit that the proofs must refuse, also those of crates/*/must-fail-more, which cost too much for the gate
# (docs/TESTING.md, "Wrong edits").
refuse:
	$(need_rt)
	tests/try-edits --all

# The definitions of CRATE (of its specs/FILE.antt alone, of lines new since the commit SINCE, or COUNT changes that SEED picks),
# changed one place at a time: prints every change that still proves (docs/TESTING.md). Whole, beside other work, it takes
# half an hour for rules and minutes for the others.
CRATE = rules
FILE =
SINCE =
COUNT = 0
mutate:
	nice -n 19 python3 tests/mutate.py --crate $(CRATE) --file '$(FILE)' --since '$(SINCE)' --count $(COUNT) --seed $(SEED)

# What the check cost before and after each landing, tree by tree, from nothing, with the toolchain of these trees: two hours on a
# machine that does nothing else. The figures are appended to the file; those that it has are not measured again.
landings:
	tests/landings.py measure --ci docs/landings.tsv
	tests/landings.py draw docs/landings.tsv docs/landings.svg

# The long comparison with samsung.rs, ten to twenty minutes.
compare: $(archive)
	$(cargo_run) -p compare -- long

# As many calls as docs/TESTING.md tells: eight million of V0, a hundred thousand frames in bands, as many streams of V2, pairs of
# lists, two hundred thousand frames written. SEED picks others.
SEED = 1
compare-long: $(archive)
	$(cargo_run) -p compare -- v0 1_000_000 $(SEED)
	$(cargo_run) -p compare -- bands 100_000 $(SEED)
	$(cargo_run) -p compare -- lists 20_000 $(SEED)
	$(cargo_run) -p compare -- v2 100_000 $(SEED)
	$(cargo_run) -p compare -- write 200_000 $(SEED)
	$(cargo_run) -p compare -- missing 400 $(SEED)
	$(cargo_run) -p compare -- uploads 200 $(SEED)
	$(cargo_run) -p compare -- late 20_000 $(SEED)
	$(cargo_run) -p compare -- packed 200_000 $(SEED)

# Razvolk and samsung.rs timed in turn on the same frames, three to four minutes.
bench: $(archive)
	$(cargo_run) -p bench

$(made)/%: %.c include/razvolk.h $(archive)
	mkdir -p $(dir $@)
	$(CC) -O1 -g -std=c99 -Wall -Wextra -pedantic -Werror -Iinclude $< -x none $(archive) -o $@

# The C examples and hostile calls under valgrind, which must have nothing to report.
memcheck: $(made)/examples/decode $(made)/examples/write $(made)/tests/header $(made)/tests/hostile
	for name in decode write; do \
		valgrind -q --error-exitcode=9 $(made)/examples/$$name > $(made)/$$name.txt && \
		diff examples/$$name.txt $(made)/$$name.txt || exit 1; done
	valgrind -q --error-exitcode=9 $(made)/tests/header
	valgrind -q --error-exitcode=9 $(made)/tests/hostile heap 400 $(SEED)

# FOR seconds of each: the tool's work on a file, led by coverage (clang's libFuzzer), and the C entries on streams that are made
# and damaged, each slice beside a page that can't be touched.
FOR = 60
fuzz_target = x86_64-unknown-linux-gnu
counters = -Cpasses=sancov-module $(addprefix -Cllvm-args=-sanitizer-coverage-, level=4 inline-8bit-counters pc-table \
	trace-compares) -Coverflow-checks=yes -Cdebug-assertions=yes
fuzz: $(made)/tests/hostile frames
	RUSTFLAGS='$(counters)' CARGO_TARGET_DIR=$(CURDIR)/rust/target/fuzz tests/tool-cargo build --release -p fuzz \
		--target $(fuzz_target)
	clang -fsanitize=fuzzer rust/target/fuzz/$(fuzz_target)/release/libfuzz.a -lgcc_s -lpthread -ldl -lm -o $(made)/look
	mkdir -p $(made)/corpus
	cp $(made)/frames/small*.srw $(made)/corpus/
	cd $(made) && ./look -max_total_time=$(FOR) -max_len=4096 -rss_limit_mb=1024 -print_final_stats=1 corpus > look.log 2>&1 || \
		{ tail -40 look.log; exit 1; }
	grep 'cov:' $(made)/look.log | tail -1
	grep '^Done\|^stat' $(made)/look.log
	$(made)/tests/hostile pages $(FOR)s $(SEED)

# FOR seconds of the container's C functions on files, led by coverage, with the sanitizers of the compiler.
fuzz-container: include/razvolk_srw.h frames
	cd rust && RUSTFLAGS='$(counters)' cargo rustc --release --offline --locked -p razvolk-srw --crate-type staticlib \
		--target $(fuzz_target) --target-dir target/fuzz
	clang -g -O1 -std=c99 -Wall -Wextra -Werror -fsanitize=fuzzer,address,undefined -fno-sanitize-recover=all -Iinclude tests/fuzz_container.c \
		rust/target/fuzz/$(fuzz_target)/release/librazvolk_srw.a -lgcc_s -lpthread -ldl -lm -o $(made)/find
	mkdir -p $(made)/corpus-container
	cp $(made)/frames/small*.srw $(made)/corpus-container/
	cd $(made) && ./find -max_total_time=$(FOR) -max_len=4096 -rss_limit_mb=2048 -print_final_stats=1 corpus-container > find.log 2>&1 || \
		{ tail -40 find.log; exit 1; }
	grep '^INFO: Seed' $(made)/find.log
	grep 'cov:' $(made)/find.log | tail -1
	grep '^Done\|^stat' $(made)/find.log

# What proofs don't reach, tried on two processors for HOUR_SECONDS (docs/TESTING.md). It prints the seed, the clock's, and ends
# with one line of counts.
HOUR_SECONDS = 3600
hour: $(archive)
	nice -n 19 tests/hour $(HOUR_SECONDS)

# Frames in a camera's container, to look at and to damage.
frames: $(archive)
	CARGO_TARGET_DIR= tests/tool-cargo run --release --quiet --example frames -- $(CURDIR)/$(made)/frames

# The pictures in the README: a frame with upward blocks from row 0 on, decoded over another, blanked, and blanked softly; and an
# upload that broke off at half its height. Samples of them are old, or made of missing words: status 3.
picture: frames tool
	cd $(made)/frames/large && for line in '--over sitting.srw christening.srw --png marked.png' \
		'--over sitting.srw christening.srw --blank 6000 --png blanked.png' \
		'--over sitting.srw corner.srw --blank --outline --png softened.png' 'upload.srw --png upload.png'; do \
		$(CURDIR)/$(tool) --force $$line || [ $$? -eq 3 ] || exit 1; done && mv *.png $(CURDIR)/docs/

# A screenshot of a contact sheet, for the README.
sheet: tool
	tests/sheet $(made)/sheet docs/sheet.png

# Twelve frames of twenty megapixels: the tool beside dcraw and LibRaw, with pictures and without.
bench-tool: tool
	tests/bench-tool $(made)/bench-tool $(tool)

# Some thousand frames in one process, through one decoder: memory must stay flat.
soak: $(archive)
	$(cargo_run) --quiet -p razvolk --example soak -- 5000

fmt:
	$(need_rt)
	for name in crates/*/; do (cd $$name && rt fmt) || exit 1; done
	cd rust && cargo fmt --all
	tests/tool-cargo fmt
