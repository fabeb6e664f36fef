# The targets of the README. They need only the Rattle kit (`rt` on the path). `make help` lists them.

BINARY = crates/tsmux/out/tsmux
TSJOB = crates/tsjob/out/tsjob
TSAIR = crates/tsair/out/tsair
TSVIEW = crates/tsview/out/tsview
TSREMUX = crates/tsremux/out/tsremux

# Programs beside them that need Python 3.11: for chains on air.
ON_AIR = examples/on-air/merge-records examples/on-air/events-to-records examples/on-air/frame-records examples/on-air/share-records examples/on-air/declare-encoder examples/on-air/pace-by-clock examples/on-air/tsview-metrics tools/pcr-rate

PROGRAM ?= tsmux
PREFIX ?= /usr/local

.PHONY: help run try install dist deb test check-docs edits bench binary tsjob tsremux tsair tsview pages picture any-stream on-air soak clean

help: ## List the targets.
	@sed -n 's/^\([a-z-]*\):.*## \(.*\)/\1\t\2/p' $(MAKEFILE_LIST) | while IFS="$$(printf '\t')" read -r target text; do \
	    printf '%-12s %s\n' "$$target" "$$text"; done

# Plans the radio example, multiplexes its 167 access units (four seconds of MPEG audio) with all tables, then lists and monitors the
# result. The pages of the stream and of the plan are drawn by tsview if it is built, otherwise by the same program without its proofs,
# which takes a minute or two.
run: binary ## Prove and build tsmux, then multiplex the radio example (37 minutes of processor time).
	mkdir -p out
	$(BINARY) plan < examples/radio/radio.toml > out/radio.plan
	cat examples/radio/radio.toml out/radio.plan examples/radio/radio.units > out/radio.job
	$(BINARY) mux < out/radio.job > out/radio.ts
	@ls -l out/radio.ts
	$(BINARY) demux < out/radio.ts > out/radio.findings
	@tail -n 1 out/radio.findings
	$(BINARY) monitor --rate 1504000 < out/radio.ts
	@if test -x $(TSVIEW); then \
	    $(TSVIEW) --rate 1504000 --window 100 --page < out/radio.ts > out/radio.html && $(TSVIEW) --plan < out/radio.job > out/radio-plan.html; \
	else cd crates/tsview && echo "pages by the unproved tsview (make tsview: the proved one)" && \
	    rt try -- --rate 1504000 --window 100 --page < ../../out/radio.ts > ../../out/radio.html && \
	    rt try -- --plan < ../../out/radio.job > ../../out/radio-plan.html; fi
	@ls -l out/radio.html out/radio-plan.html

# `make try WORDS='check' < JOB` runs another command, and PROGRAM=tsjob another program; `make try IN=film.ts` says what `tsjob` would do with a
# stream, and how full a receiver's buffers would be, by its first 64 MiB: the kit's trial run takes no more, and 1 MiB of output.
ifdef WORDS
try: ## Run tsmux without proofs on the radio example, with WORDS='..', or look at a stream: IN=film.ts (1 to 2 minutes a program).
	@cd crates/$(PROGRAM) && rt try -- $(WORDS)
else ifdef IN
try:
	@echo "building tsjob and tsview without proofs: 1 to 2 minutes each"
	@cd crates/tsjob && head -c 67108668 $(abspath $(IN)) | rt try -- why || true
	@cd crates/tsview && head -c 67108668 $(abspath $(IN)) | rt try -- --quiet || true
	@echo "make tsremux (66 minutes) proves and builds it; then: crates/tsremux/out/tsremux $(IN) -o OUT.ts"
else
try:
	cd crates/tsmux && rt try -- plan < ../../examples/radio/radio.toml
endif

install: ## Copy the programs that are built, and those of ON_AIR, to PREFIX/bin, manual pages and completions to PREFIX/share (default /usr/local).
	@test -x $(BINARY) || test -x $(TSJOB) || test -x $(TSREMUX) || test -x $(TSAIR) || test -x $(TSVIEW) || { echo "nothing is built: make run, make tsremux tsjob tsair tsview"; exit 1; }
	mkdir -p $(PREFIX)/bin
	@for program in $(BINARY) $(TSJOB) $(TSAIR) $(TSVIEW) $(TSREMUX); do \
	    if test -x $$program; then install -m 755 $$program $(PREFIX)/bin/ && echo $(PREFIX)/bin/$${program##*/}; fi; done
	install -m 755 $(ON_AIR) $(PREFIX)/bin/
	tools/docs options --write $(PREFIX)/share

dist: ## Make a tarball of the five built programs, manual pages, completions and documents in out/dist.
	@for program in $(BINARY) $(TSJOB) $(TSAIR) $(TSVIEW) $(TSREMUX); do test -x $$program || { echo "not built: make binary tsjob tsair tsview tsremux"; exit 1; }; done
	tools/package $(BINARY) $(TSJOB) $(TSAIR) $(TSVIEW) $(TSREMUX) out/dist

# Needs dpkg-deb.
deb: dist ## The same, as a Debian package.
	@ls out/dist/*.deb

# With no words and no input tsmux does nothing.
binary: ## Prove and build tsmux.
	tools/gate-progress tsmux sh -c 'cd crates/tsmux && exec rt run < /dev/null'

# With empty input tsjob prints `no PAT` and exits with status 1.
tsjob: ## Prove and build tsjob (27 minutes after tsmux).
	cd crates/tsjob && { rt run < /dev/null; test -x out/tsjob; }

# With empty input tsremux prints `no PAT` and exits with status 1.
tsremux: ## Prove and build tsremux (2 minutes after tsmux and tsjob).
	cd crates/tsremux && { rt run < /dev/null; test -x out/tsremux; }

# With empty input tsair prints `job` and exits with status 1.
tsair: ## Prove and build tsair (4 minutes more).
	cd crates/tsair && { rt run < /dev/null; test -x out/tsair; }

# With empty input tsview writes `empty` and exits with status 1.
tsview: ## Prove and build tsview (19 minutes more).
	cd crates/tsview && { rt run < /dev/null; test -x out/tsview; }

on-air: binary tsjob tsair ## Air a stream from a feeder to a loopback socket (examples/on-air).
	sh examples/on-air/run.sh $(TSJOB) $(BINARY) $(TSAIR)

# `make soak` takes at least five minutes, with HOURS=24 two hours. SOAK has further words of tools/soak: `SOAK='--seed 7 --speed 1'`.
HOURS ?= 1
soak: binary tsjob tsair tsview ## Air two live encoders with faults for an hour (tools/soak).
	tools/soak --seconds $$(($(HOURS) * 3600)) $(SOAK) $(TSJOB) $(BINARY) $(TSAIR) $(TSVIEW)

# Chromium, if it is installed, draws them on light and dark paper; out/pages keeps the pictures.
pages: tsview ## Draw the pages of the cases and check them.
	tools/page-check $(TSVIEW) out/pages

picture: binary tsjob tsview ## Draw the picture of the README (ffmpeg and Chromium).
	tools/buffer-picture $(TSVIEW) $(TSJOB) $(BINARY) docs/buffers.png

any-stream: binary tsjob ## Take streams of ffmpeg and GStreamer through tsjob and tsmux (examples/README.md).
	sh examples/any-stream/run.sh $(TSJOB) $(BINARY)

# `rt ci` runs every proof, each test, and each program as two compilers make it; then the prover refuses wrong bodies. As many checks run at
# once as there are processors: without RT_JOBS `rt ci` would also wait for memory that a check may take, and no check takes as much (GATE).
# Libraries of earlier runs are removed first: `rt ci` of rattle-kit-13b would put them back in place of those that it proves.
test: ## The merge gate: all proofs and tests (docs/GATE.md).
	rm -rf crates/*/out/rlib
	RT_JOBS=$${RT_JOBS:-$$(nproc)} tools/gate-progress all tools/rt-ci
	tools/try-edits --gate
	tools/run-tests crates/tsmux/out/tsmux crates/tsjob/out/tsjob crates/tsair/out/tsair crates/tsview/out/tsview crates/tsremux/out/tsremux

check-docs: ## Check the documents: links, words of commands, claims, generated tables, messages, options, plain English.
	tools/docs
	tools/gate-times --check

edits: ## Try all wrong bodies, also those that the gate does not try (after make test, before a release).
	tools/try-edits

# Needs python3 and cc.
bench: binary tsjob tsair tsview ## Measure speed and how full a multiplex can be (bench/README.md).
	python3 bench/mux.py $(BINARY)
	python3 bench/air.py $(BINARY) $(TSAIR)
	python3 bench/slots.py $(BINARY)
	python3 bench/carry.py $(BINARY)
	python3 bench/film.py $(BINARY) $(TSJOB) $(TSAIR)
	python3 bench/demux.py $(BINARY)
	python3 bench/monitor.py $(BINARY)
	python3 bench/tsjob.py $(TSJOB) $(BINARY)
	python3 bench/tsview.py $(TSVIEW) $(BINARY)
	python3 bench/instructions.py $(BINARY) $(TSJOB) $(TSAIR) $(TSVIEW)
	python3 bench/packets.py
	python3 bench/check.py
	python3 bench/measure.py
	python3 bench/plan.py $(BINARY) 40
	python3 bench/transponders.py $(BINARY) 20

clean: ## Remove everything that was built.
	rm -rf out crates/*/out
