# faultyard: proved, built and tested by the command `rt` of the Rattle toolchain. `make help` lists
# the targets: the lines with two signs above one say what it does.

PREFIX ?= /usr/local
VERSION := $(shell release/version)
BUILT := crates/faultyard/out/faultyard
UNPROVED := bin/unproved/faultyard
KIT = $(dir $(shell rt doc))
RUSTC = rustc --edition 2024 -C opt-level=3

# What stands before a command that proves or builds.
NEEDS_RT = @command -v rt > /dev/null || { \
	echo "make $@: there is no rt, the command of the Rattle toolchain;" \
	"see 'Building, testing, contributing' in README.md" >&2; exit 2; }

.PHONY: $(shell sed -n 's/^\([a-z][a-z-]*\):.*/\1/p' Makefile)

# `rt run` proves what changed, builds the program beside its crate and runs it once.
## proves the program with the crates that it stands on, and leaves it at `bin/faultyard`; `make`
## alone does so
build:
	$(NEEDS_RT)
	cd crates/faultyard && rt run -- --help > /dev/null
	mkdir -p bin
	cp $(BUILT) bin/faultyard

## prints this list
help:
	@awk -f tools/help.awk Makefile

# One build serves all that is shown, and what is tested without proofs.
## builds the program without proofs, and shows `judge`, `run`, `check` and `simulate` on the
## examples
run:
	$(NEEDS_RT)
	@echo "make run: builds the program without its proofs, once, as $(UNPROVED):" \
		"some two minutes on four processors"
	@$(MAKE) --no-print-directory --silent $(UNPROVED)
	@examples/tour $(UNPROVED)

$(UNPROVED): $(shell find crates -name '*.rt' -not -path '*/out/*') crates.txt \
		$(addprefix tests/tools/,build-unproved keep-program.c layout)
	@tests/tools/build-unproved $@

# `rt lib` proves what changed.
## proves the C library, and leaves it at `bin/libfaultyard.a` and `bin/libfaultyard.so`
lib:
	$(NEEDS_RT)
	cd crates/fy_c && rt lib > /dev/null
	$(MAKE) --no-print-directory merged

# The library is the crate's one object beside those of the toolchain's archive for memory, so that
# a program links with one file. The shared library exports what the header declares. Without a C
# compiler there is none, without Go no faultyard-serve, and without libfuse3-dev no
# faultyard-lossy.
## makes these two of the crate's object and the toolchain's; `make lib` and `make test` call it
merged:
	rm -rf bin/objects
	mkdir -p bin/objects
	cd bin/objects && ar x ../../crates/fy_c/out/libfy_c.a && ar x $(KIT)/c/liblibc_c.a
	rm -f bin/libfaultyard.* bin/faultyard-serve
	ar rcsD bin/libfaultyard.a bin/objects/*.o
	if command -v $(CC) > /dev/null; then \
		$(CC) -shared -Wl,-soname,libfaultyard.so.1 -Wl,--version-script=release/libfaultyard.map \
			-o bin/libfaultyard.so.$(VERSION) bin/objects/*.o && \
		ln -s libfaultyard.so.$(VERSION) bin/libfaultyard.so.1 && \
		ln -s libfaultyard.so.$(VERSION) bin/libfaultyard.so; \
	fi
	if command -v $(CC) > /dev/null && command -v go > /dev/null && \
			command -v pkg-config > /dev/null; then \
		tools/serve/build bin/libfaultyard.a bin/faultyard-serve; \
	fi
	if command -v pkg-config > /dev/null && pkg-config --exists fuse3; then \
		$(MAKE) --no-print-directory lossy; \
	fi

## all that CI runs: the unit tests, every proof from nothing, all suites on the proved program and
## the C library, and for five minutes the mutants that this machine hasn't seen refused
test:
	$(NEEDS_RT)
	tests/suites test

## SINCE=.. runs the tests that need no proof, on the program built without proofs: all, or those
## that look at what changed since a commit, SINCE
quick:
	tests/suites quick $(if $(SINCE),--since $(SINCE))

## formats all crates, and what isn't Rattle
format:
	for crate in crates/*; do (cd "$$crate" && rt fmt) || exit 1; done
	tests/style/run format

## makes what pages say of the source: the crates of ARCHITECTURE and their diagram, acts, replies,
## questions, limits, faults and statuses of FORMATS, the calls of LIBRARY, the lines of hooks,
## which files a change touches, what to do after a kill; and CONTRACTS and DEFINITIONS, which only
## the site and the packages have
pages:
	tools/pages/make
	release/pages tables

## makes a site of the pages below `site/`, with search; needs Debian's `mkdocs` and
## `mkdocs-material`
site:
	mkdocs build --quiet --strict

## runs 200 seeds on each cluster file of `examples/` and checks each audit
swarm-seeds: build
	tests/swarm/run bin/faultyard --seeds 200

## holds `linear` against a search through all orders on a million histories, and `verdict` against
## a model of its rules on ten thousand
try-histories: build
	tests/linear/run bin/faultyard --histories 1000000
	tests/verdict/run bin/faultyard --histories 10000

## holds the answers to 100,000 random mixes of acts and questions, by pipe and by C, against a
## model of the rules
try-questions: build lib
	tests/questions/run bin/faultyard bin/libfaultyard.so --mixes 100000

## makes each allocation fail once, one run each, in short tests of each command, act and check
refused-memory:
	tests/refused-memory/run faultyard/short:: fy_tests/a_buffer_keeps \
		fy_cluster_tests/short::,actors::played::,actors::stored::

## tries every mutant again; run it before a release
mutants:
	$(NEEDS_RT)
	tests/mutants/run --all

## runs `faultyard-nemesis` on redis, etcd, PostgreSQL, ZooKeeper and RabbitMQ, a minute guarded and
## a minute unguarded with two seeds each, and prints a table; then a minute each with partitions,
## and with power cuts on `lossy` and `ext4` in a durable setting and a lax one; takes over an hour,
## and has to be root
try-stores: build
	tests/stores/run --table bin/faultyard
	$(MAKE) --no-print-directory lossy
	tests/stores/run --power bin/faultyard

## runs it guarded for a minute on each store that boots slowly: ZooKeeper and RabbitMQ
slow-stores: $(UNPROVED)
	tests/stores/run --slow $(UNPROVED)

# libfuse is linked in where its archive is there, so that a release runs without it, whichever
# version a machine has.
## builds the disk that forgets what isn't synced, `bin/faultyard-lossy`; needs libfuse3-dev
lossy: FUSE_ARCHIVE = $(wildcard $(shell pkg-config --variable=libdir fuse3)/libfuse3.a)
lossy: FUSE = $(or $(FUSE_ARCHIVE:%=% -pthread -ldl),$(shell pkg-config --libs fuse3))
lossy: bin/faultyard-lossy

bin/faultyard-lossy: $(wildcard tools/lossy/*.[ch]) crates/faultyard/src/task.rt
	mkdir -p bin
	$(CC) -std=gnu11 -D_GNU_SOURCE -DFAULTYARD_VERSION='"$(shell release/version)"' \
		-O2 -Wall -Wextra -Werror $(shell pkg-config --cflags fuse3) \
		-o $@ tools/lossy/*.c $(FUSE)

## tests that disk by thousands of seeds, beside ext4 and xfs, and by longer loads; needs to be root
try-disks:
	tests/disk/run --long

## judges a thousand runs of `faultyard-nemesis` in virtual time, each on a store with some fault
nemesis-seeds:
	tests/nemesis/run --seeds 1000 bin/faultyard seeds

## aborts a hundred runs of `faultyard-nemesis` at random moments: no process may be left
nemesis-aborts:
	tests/nemesis/run --aborts 100 bin/faultyard real.Aborts
	tests/power/run --aborts 100 bin/faultyard Aborts

## kills the tool of a run by ssh, its guard, ssh or sshd at a hundred moments: each run ends with
## its verdict; takes over half an hour, and has to be root
nemesis-deaths:
	HOSTS_DEATHS=100 HOSTS_AT_ONCE=4 tests/hosts/run bin/faultyard deaths

## runs `faultyard-nemesis` with power cuts, cut and shaped networks, disks that are slow, full or
## damaged, and clocks that are off; takes seven minutes, and has to be root
try-power: build
	tests/power/run bin/faultyard

## runs `faultyard-nemesis` on hosts in trouble, as units, in pods, in containers, with other
## stores; then redis, etcd and PostgreSQL by ssh, guarded and unguarded with two seeds each, and
## prints a table; takes an hour, and has to be root
try-hosts: build
	tests/hosts/run bin/faultyard troubles by_units by_pods by_containers by_stores
	tests/stores/run --ssh bin/faultyard

## kills `faultyard-serve` a hundred times while a nemesis and two testers ask it over an etcd of
## five, and sends it a hundred thousand wrong requests; takes a quarter of an hour
serve-many: build lib
	tests/serve/many bin/faultyard bin/faultyard-serve
	tests/serve/run --kills 100 --requests 100000 bin/faultyard bin/libfaultyard.a \
		test_serve.Crashes test_http.Wrong

## cuts the power of its disk a hundred times while clients of both doors ask it with keys: no act
## may be lost, and none made twice; needs libfuse3-dev
serve-power: build lib
	tests/serve/run --cuts 100 bin/faultyard bin/libfaultyard.a test_power.Power

## has a hundred hostile clients beset `faultyard-serve` for an hour, beside a nemesis and two
## testers that are timed; then no answer may be lost, and its memory has to be flat
serve-hour: build lib
	tests/serve/hour bin/faultyard bin/faultyard-serve

## times `faultyard-serve` beside the pipe of `guard` and a server that echoes; needs a machine with
## nothing else to do
serve-speed: build lib
	cd tests/serve/echo && go build -buildvcs=false -o ../../../bin/echo .
	tests/serve/speed bin/faultyard bin/faultyard-serve bin/echo bin

## draws a picture, and takes screenshots of it and of the page of `faultyard-serve`; needs
## `chromium`
look: build lib
	tests/show/look bin/faultyard
	tests/serve/look bin/faultyard bin/faultyard-serve

## PREFIX=.. puts the program, its tools, the library, man pages, completions, pages and their site
## below PREFIX, by the list `release/layout`; PREFIX is `/usr/local` if left out
install: build lib
	$(MAKE) --no-print-directory installed

## does so with what stands in `bin`; `make install` calls it
installed:
	release/install "$(DESTDIR)" "$(PREFIX)"

## PREFIX=.. removes them
uninstall:
	release/install --remove "$(DESTDIR)" "$(PREFIX)"

# `rt run` leaves the proved object beside the program.
## proves the program, and links it statically into `bin/faultyard-static`, which runs on any Linux
## on x86-64; needs Debian's `libc6-dev`
static: build
	$(CC) -static -o bin/faultyard-static crates/faultyard/out/faultyard.o \
		$(KIT)/c/libos_c.a $(KIT)/c/liblibc_c.a

## proves and builds all, and leaves a release in `dist/`: an archive, a Debian package,
## `SHA256SUMS`. Two builds of one commit give the same bytes
dist: build lib
	$(MAKE) --no-print-directory packaged

## does so with what stands in `bin`; `make dist` calls it
packaged:
	release/dist dist

## tries what is in `dist/` in bare roots without the toolchain; needs `mmdebstrap`, and to be root
try-dist:
	tests/dist/try dist

## runs the commands of README, of pages of `docs/` and of each store's page as they are written, in
## a bare root with what is in `dist/` and Debian's packages that they call; takes over half an hour
try-commands:
	tests/dist/try --commands dist

# Beside the same command in plain Rust, where there is a rustc; and where BESIDE is the path of
# another program of this command line, `run`, `check` and `swarm` beside its own.
## times the program, the verdicts and the cluster (PERFORMANCE.md)
bench: build lib
	if command -v rustc > /dev/null; then \
		$(RUSTC) -o bin/judge_by_hand bench/judge_by_hand.rs && \
		$(RUSTC) -o bin/door bench/door.rs && bin/door; \
	fi
	if [ -n "$(BESIDE)" ]; then bench/beside.py bin/faultyard $(BESIDE); fi
	bench/judge.py bin/faultyard $$(ls bin/judge_by_hand 2> /dev/null)
	bench/run.py bin/faultyard $(BESIDE)
	bench/check.py bin/faultyard $(BESIDE)
	bench/check.py --largest --rounds 1 bin/faultyard $(BESIDE)
	bench/cycles.py bin/faultyard $(BESIDE)
	bench/swarm.py bin/faultyard $(BESIDE)
	bench/simulate.py bin/faultyard
	bench/guard.py bin/faultyard
	bench/histories.py bin/faultyard
	-bench/histories.py --growth bin/faultyard
	-bench/growth --all --states 1000 bin/faultyard
	-if [ -n "$(BESIDE)" ]; then bench/growth --all --beside $(BESIDE) bin/faultyard; fi
	for part in verdicts acts turns orders needs bodies configs; do \
		bench/parts.py $$part || exit 1; \
	done
	if command -v $(CC) > /dev/null; then bench/calls.py kills $(BESIDE); fi
	if command -v $(CC) > /dev/null; then bench/calls.py copies; fi
	if command -v $(CC) > /dev/null; then bench/asks.py bin/faultyard bin/libfaultyard.a; fi

## removes what was built, and what earlier checks kept
clean:
	rm -rf bin dist site crates/*/out
