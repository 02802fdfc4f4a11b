# Entry points; 'make' alone lists them. The first line of a target's comment is its help.
.PHONY: help run verdict tlog try test wrong-bodies bench definitions ffi ffi-test install dist interop
.NOTPARALLEL:

PROVE = python3 scripts/prove_all.py $(if $(V),--notes) $(if $(CPU),--cpu $(CPU))

# Lists the targets.
help:
	@awk '/^# / { if (!text) text = substr($$0, 3); next } /^[a-z-]+:/ { if (text) printf "make %-14s %s\n", substr($$1, 1, length($$1) - 1), text } { text = "" }' $(lastword $(MAKEFILE_LIST))

# Runs the program without a proof: on standard input, or on two entries if that is a terminal.
try:
	@echo "make try: nothing is proved here; make run proves the program" >&2; cd crates/warg_check_cli && notes="$$(mktemp)" && \
	if [ -t 0 ]; then printf 'push 6f6e65\npush 74776f\nlog\ninclude 2 2 74776f\n'; else cat; fi | rt try 2> "$$notes"; status=$$?; \
	grep -v "$(if $(V),^$$,^checked: \|^interpreter: \|^run=)" "$$notes" >&2; rm "$$notes"; exit $$status

# Proves and builds the program, as bin/warg_check. CPU=x86-64-v3 is for newer processors, V=1 shows the prover's notes.
run:
	@$(PROVE) warg_check_cli && \
	mkdir -p bin && cp crates/warg_check_cli/out/proved/warg_check_cli bin/warg_check && \
	echo "bin/warg_check reads commands on standard input; see bin/warg_check --help"

# Proves and builds the program for scripts, as bin/warg_verdict.
verdict:
	@$(PROVE) warg_verdict && \
	mkdir -p bin && cp crates/warg_verdict/out/proved/warg_verdict bin/warg_verdict && \
	echo "bin/warg_verdict judges a proof in a bundle; see bin/warg_verdict --help"

# Proves and builds the program that keeps a log in a folder, as bin/warg_tlog.
tlog:
	@$(PROVE) warg_tlog && \
	mkdir -p bin && cp crates/warg_tlog/out/proved/warg_tlog bin/warg_tlog && \
	echo "bin/warg_tlog keeps a log in a folder; see bin/warg_tlog --help"

# Runs the merge gate: the kit's own with each proof, test and program, the wrong bodies, the examples.
test:
	@python3 scripts/gate.py

# Tries wrong bodies; of one crate with CRATE=warg_log, by a word of their names with ONLY=push.
wrong-bodies:
	@said="$$(cd $(if $(CRATE),crates/$(CRATE) && rt check,. && rt all check) 2>&1)" || { echo "$$said"; exit 1; }
	@python3 scripts/wrong_bodies.py $(if $(CRATE),--crate $(CRATE)) $(if $(ONLY),--only $(ONLY))

# Proves and builds the measuring program, and prints its times; scripts/bench_counts.py counts.
bench:
	@$(PROVE) warg_bench && crates/warg_bench/out/proved/warg_bench measure

# Prints the definitions that the contracts rest on, in reading order.
definitions:
	@python3 scripts/pages.py --definitions

# Proves and builds the library for C, as ffi/libwarg.a and ffi/libwarg.so.
ffi:
	@ffi/build.sh

# Runs the examples in C, Python, Rust and Go on every check line of the vectors, and a hostile caller.
ffi-test: ffi
	@ffi/test.sh

# Installs the library for C, Python and Go below PREFIX, /usr/local unless given.
install: ffi
	@ffi/install.sh "$${PREFIX:-/usr/local}"

# Packs programs, libraries and modules for users without the toolchain, as dist/warg-VERSION-x86_64-linux.tar.gz.
dist:
	@scripts/dist.sh

# Compares paths, tiles and checkpoints with those of Go's checksum database; BENCH=1 prints times, too.
interop:
	@interop/run.sh
