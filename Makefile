# make run      runs the main job on the sample data: the proved program where it is up to date, otherwise unproved
# make          proves and builds the program
# make test     the whole gate: proofs, must-fail edits, tests, the stored run, and the program seen from outside
# make install  puts the proved program into PREFIX/bin, and its man page and completions into PREFIX/share
PREFIX ?= /usr/local
PROGRAM = crates/ygm_run/out/ygm_run
SHARE = $(DESTDIR)$(PREFIX)/share
SAMPLE = tally data/access1.log data/access2.log data/access3.log
MAKEFLAGS += --no-print-directory

# A checksum of all that a proof rests on: the toolchain and the sources.
SOURCES = { rt version; find crates.txt HANDLES crates/*/src crates/*/specs crates/*/proofs -type f -exec cksum {} + \
	| sort; } | cksum
# What `make` writes beside the program that it proved: that checksum and the program's own.
STAMP = crates/ygm_run/out/proved_from
MADE = { $(SOURCES) && cksum <$(PROGRAM); }
# $(call proved,COMMAND): a command that proves and builds the program, and then the stamp.
proved = rm -f $(STAMP); before=$$($(SOURCES)); $(1) || exit; \
	if [ "$$before" != "$$($(SOURCES))" ]; then \
		echo 'make: the sources changed while they were proved; start again' >&2; exit 1; \
	fi; \
	$(MADE) >$(STAMP)

.PHONY: all run test install

all:
	@$(call proved,(cd crates/ygm_run && rt run -- tally data/f0 data/f1 >/dev/null))

# What rt itself says of an unproved run is shown only where that fails.
run:
	@if [ -f $(STAMP) ] && $(MADE) 2>/dev/null | cmp -s - $(STAMP); then \
		cd crates/ygm_run && exec out/ygm_run $(SAMPLE); \
	fi; \
	echo 'make run: these sources are not proved yet (make proves them); running them unproved, about a minute' >&2; \
	said=$$(mktemp) && trap 'rm -f "$$said"' EXIT && cd crates/ygm_run || exit 1; \
	rt try -- $(SAMPLE) 2>"$$said" || { status=$$?; cat "$$said" >&2; exit $$status; }

test:
	@$(call proved,rt ci)
	@sh checks/contracts.sh
	@sh checks/contracts_test.sh
	@sh checks/refusals.sh $(PROGRAM)
	@sh checks/options.sh $(PROGRAM)
	@sh checks/against_sort.sh $(PROGRAM) README.md docs/*.md
	@sh checks/layouts.sh $(PROGRAM)
	@sh checks/generated.sh $(PROGRAM) 100000

install: all
	install -D $(PROGRAM) $(DESTDIR)$(PREFIX)/bin/ygm_run
	install -Dm644 docs/ygm_run.1 $(SHARE)/man/man1/ygm_run.1
	install -Dm644 completions/ygm_run.bash $(SHARE)/bash-completion/completions/ygm_run
	install -Dm644 completions/_ygm_run $(SHARE)/zsh/site-functions/_ygm_run
	install -Dm644 completions/ygm_run.fish $(SHARE)/fish/vendor_completions.d/ygm_run.fish
