# What to type here:
#   make            proves the program and all that it depends on, builds it, and says where it is
#   make demo       runs it on the readings of examples/: the built program, where there is one; else one command, which the toolchain runs from the
#                   sources, of which nothing is proved here yet
#   make test       judges the whole repository as the gate does, and then tries what make try tries, half of what make hostile does, the demonstration, and the
#                   commands that README.md and docs/READING.md show (not make test, nor what needs a tool that is not installed); the last line is
#                   'N passed, M failed'
#   make hostile    makes each allocation of many runs fail in turn, makes each system call of the program's runs fail or ends it there,
#                   changes each byte of the sample discs' descriptors, makes the same system calls on this machine and in memory, and cuts the power
#                   of a disk amid system calls
#   make try        tries the built program on this machine's own files and devices and on a terminal, and with GNU ddrescue where it is installed
#   make docs       prints the definitions, the contracts with their edits, and the modules from the sources into out/docs
#   make install    puts the program, the script udfsalvage-rescue, their man pages and the completions below PREFIX; make uninstall takes them away
#   make clean      removes all that was made
#   make dist       a tar of the sources, and one of the built program, in out/
#   make deb        a Debian package of the built program in out/, looked at, installed, run and removed in a scratch root
#   make bench      measures merge against cp, and of an image against its reading, extract against cp -r of the same files, report against reading its input in,
#                   the CRC against the plain byte table in Rust, the table of blocks against an ordered map and plain copying,
#                   places a second, report of volumes that are made to take time or memory, the rounds of a rescue in simulated drives, and the same work
#                   by ddrescue and 7-Zip. What it prints is kept in bench/results, and docs/SPEED.md is written from it
#   make examples   writes the example readings anew

RT ?= rt
PREFIX ?= /usr/local
DESTDIR ?=

# How many crates are proved side by side: one for each processor and each 4 GB of memory.
JOBS ?= $(shell sh tools/jobs)

PROGRAM = crates/udfsalvage/out/udfsalvage
TRIES = crates/try_samples/out/try_samples

all: have-rt
	@$(MAKE) -s --no-print-directory $(PROGRAM)
	@echo "The program is $(PROGRAM)"

have-rt:
	@command -v $(RT) > /dev/null || { \
	    echo "The toolchain's command rt is not on the PATH: put its folder bin there, or say make RT=/path/to/rt" >&2; \
	    exit 1; }

# The crates of this repository that the crate $(1) depends on, by its line in crates.txt.
below = $(foreach name,$(shell sed -n 's/^$(1)\( [^:]*\)\{0,1\}:\([^\#]*\).*/\2/p' crates.txt),$(if $(wildcard crates/$(name)/src),$(name)))

sources = $(shell find crates/$(1)/src crates/$(1)/specs crates/$(1)/proofs -name '*.rt' -o -name '*.antt' 2> /dev/null)

# When a source of a crate or of one below it changed last. Nothing is proved again unless one did, or out/ was removed: the marks are there, since `rt ci`
# removes what is in crates/*/out.
define crate-rule
out/marks/$(1): crates.txt $(call sources,$(1)) $(foreach name,$(call below,$(1)),out/marks/$(name))
	@mkdir -p out/marks
	@touch $$@
endef

$(foreach name,$(notdir $(wildcard crates/*)),$(eval $(call crate-rule,$(name))))

# Only a proved program is built. `rt ci` leaves it here too, so after `make test` it is not proved again.
define program-rule
crates/$(1)/out/$(1): out/marks/$(1)
	@echo "proving $(1) and all that it depends on"
	@tools/prove $$(RT) $(1)
	@touch $$@
endef

$(foreach name,udfsalvage try_samples bench_core,$(eval $(call program-rule,$(name))))

demo:
	@mkdir -p out
	@if $(MAKE) -q -s --no-print-directory $(PROGRAM); then $(MAKE) -s --no-print-directory demo-built; else $(MAKE) -s --no-print-directory first-look; fi

demo-built:
	@tools/demo $(PROGRAM) examples out/demo > out/demo.txt || { cat out/demo.txt; exit 1; }
	@cat out/demo.txt
	@tools/check-readme README.md out/demo.txt

first-look: have-rt
	@{ tools/first-look $(RT) examples || echo "failed"; } | tee out/first-look.txt; ! grep -qx failed out/first-look.txt
	@tools/check-readme --some README.md out/first-look.txt
	@echo
	@echo "After make, which takes an hour or two, make demo shows more, with the proved program."

# The marks are set before, so that a source that is changed meanwhile is newer than they are.
test: have-rt $(addprefix out/marks/,$(notdir $(wildcard crates/*)))
	@RT_JOBS=$(JOBS) tools/test $(RT)

hostile: all
	@$(MAKE) -s --no-print-directory $(TRIES)
	@tools/refuse-memory $(TRIES) $(PROGRAM)
	@tools/inject $(PROGRAM)
	@tools/mutate $(TRIES)
	@tools/try-same-calls $(TRIES) 100
	@tools/try-power-cuts
	@tools/try-rescue $(PROGRAM) 200

try: all
	@tools/try-machine $(PROGRAM) examples
	@tools/try-terminal $(PROGRAM) examples
	@tools/try-ddrescue $(PROGRAM) examples
	@tools/try-volumes $(PROGRAM) examples
	@tools/try-lost $(PROGRAM)
	@tools/try-writers $(PROGRAM)
	@tools/try-second-reader $(PROGRAM) examples
	@tools/try-rescue $(PROGRAM)

# Where the program is built, neither rt nor anything of the toolchain is needed.
install:
	@test -x $(PROGRAM) || $(MAKE) -s --no-print-directory all
	install -d $(DESTDIR)$(PREFIX)/bin $(DESTDIR)$(PREFIX)/share/man/man1 $(DESTDIR)$(PREFIX)/share/man/man7
	install -m 755 $(PROGRAM) $(DESTDIR)$(PREFIX)/bin/udfsalvage
	@mkdir -p out
	@tools/join-rescue out/udfsalvage-rescue
	install -m 755 out/udfsalvage-rescue $(DESTDIR)$(PREFIX)/bin/udfsalvage-rescue
	install -m 644 man/*.1 $(DESTDIR)$(PREFIX)/share/man/man1
	install -m 644 man/*.7 $(DESTDIR)$(PREFIX)/share/man/man7
	@tools/make-completions $(PROGRAM) out/completions
	install -D -m 644 out/completions/bash/udfsalvage $(DESTDIR)$(PREFIX)/share/bash-completion/completions/udfsalvage
	install -D -m 644 out/completions/zsh/_udfsalvage $(DESTDIR)$(PREFIX)/share/zsh/site-functions/_udfsalvage
	install -D -m 644 out/completions/fish/udfsalvage.fish $(DESTDIR)$(PREFIX)/share/fish/vendor_completions.d/udfsalvage.fish

uninstall:
	rm -f $(DESTDIR)$(PREFIX)/bin/udfsalvage $(DESTDIR)$(PREFIX)/bin/udfsalvage-rescue
	rm -f $(patsubst man/%,$(DESTDIR)$(PREFIX)/share/man/man1/%,$(wildcard man/*.1)) $(patsubst man/%,$(DESTDIR)$(PREFIX)/share/man/man7/%,$(wildcard man/*.7))
	rm -f $(DESTDIR)$(PREFIX)/share/bash-completion/completions/udfsalvage $(DESTDIR)$(PREFIX)/share/zsh/site-functions/_udfsalvage
	rm -f $(DESTDIR)$(PREFIX)/share/fish/vendor_completions.d/udfsalvage.fish

clean:
	rm -rf out crates/*/out

dist: all
	@tools/package $(PROGRAM) out dist

deb: all
	@tools/package $(PROGRAM) out deb
	@tools/try-deb out/udfsalvage_$$(tools/check-version $(PROGRAM))_amd64.deb

bench: all
	@bench/run $(PROGRAM) $(BENCH)

docs:
	@tools/docs

examples:
	tools/make-examples examples
	tools/make-disc examples
	cp examples/a.rd examples/b.rd crates/udfsalvage/data

.PHONY: all have-rt demo demo-built first-look test hostile try install uninstall clean dist deb bench docs examples
