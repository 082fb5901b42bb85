# Youtopia: `make` alone lists the targets.
PREFIX ?= /usr/local
NAME = youtopia
PROGRAM = crates/$(NAME)/out/$(NAME)
UNPROVED = crates/$(NAME)/out/$(NAME)-unproved
EXAMPLE ?= examples/first.session
SEED ?= 1
COUNT ?= 1000

# Where each file that is installed goes.
BIN = $(DESTDIR)$(PREFIX)/bin/$(NAME)
MAN = $(DESTDIR)$(PREFIX)/share/man/man1/$(NAME).1
BASH = $(DESTDIR)$(PREFIX)/share/bash-completion/completions/$(NAME)
ZSH = $(DESTDIR)$(PREFIX)/share/zsh/site-functions/_$(NAME)
FISH = $(DESTDIR)$(PREFIX)/share/fish/vendor_completions.d/$(NAME).fish

# The second program, and where its files go.
LIVE_NAME = yt_live
LIVE = crates/$(LIVE_NAME)/out/$(LIVE_NAME)
LIVE_BIN = $(DESTDIR)$(PREFIX)/bin/$(LIVE_NAME)
LIVE_MAN = $(DESTDIR)$(PREFIX)/share/man/man1/$(LIVE_NAME).1
LIVE_BASH = $(DESTDIR)$(PREFIX)/share/bash-completion/completions/$(LIVE_NAME)
LIVE_ZSH = $(DESTDIR)$(PREFIX)/share/zsh/site-functions/_$(LIVE_NAME)
LIVE_FISH = $(DESTDIR)$(PREFIX)/share/fish/vendor_completions.d/$(LIVE_NAME).fish

# The program over a workspace, and where its files go.
YT_NAME = yt
YT = crates/$(YT_NAME)/out/$(YT_NAME)
YT_BIN = $(DESTDIR)$(PREFIX)/bin/$(YT_NAME)
YT_MAN = $(DESTDIR)$(PREFIX)/share/man/man1/$(YT_NAME).1
YT_BASH = $(DESTDIR)$(PREFIX)/share/bash-completion/completions/$(YT_NAME)
YT_ZSH = $(DESTDIR)$(PREFIX)/share/zsh/site-functions/_$(YT_NAME)
YT_FISH = $(DESTDIR)$(PREFIX)/share/fish/vendor_completions.d/$(YT_NAME).fish

# The program that makes the schedules of small desks.
DESKS = crates/try_desk/out/try_desk

.PHONY: help run build install uninstall share quick checks differential hostile test

help:
	@echo 'make run               run the first example, by the program as proved, or without proof; that leaves a command to run'
	@echo 'make run EXAMPLE=examples/travel/travel.session'
	@echo '                       run another session'
	@echo 'make build             prove and build the program'
	@echo 'make install PREFIX=/usr/local'
	@echo '                       put the three built programs, their man pages and the completions of bash, zsh and fish below PREFIX'
	@echo 'make uninstall         take them away'
	@echo 'make quick             the quick tier: pages, sources, and every stored row by the program without proof'
	@echo 'make checks            what needs no prover: pages, figures, stored rows and tables of the built program'
	@echo 'make differential SEED=1 COUNT=1000'
	@echo '                       compare the built program with the reference in Python on random sessions'
	@echo 'make hostile           attack the built programs: refused memory, failing devices, cut and long inputs, workers, schedules, workspaces'
	@echo 'make share             make the man pages and the completions from share/words.tsv'
	@echo 'make test              the gate: prove every crate, try every must-fail edit, run every test, program and check'

run:
	@if [ -x $(PROGRAM) ]; then \
	  echo '$(NAME) run, as it was proved and built:'; $(PROGRAM) run < $(EXAMPLE); \
	elif [ -x $(UNPROVED) ] && [ -z "$$(find crates -name '*.rt' -newer $(UNPROVED) -print -quit)" ]; then \
	  echo '$(NAME) run, by $(UNPROVED), which was built without proof:'; $(UNPROVED) run < $(EXAMPLE); \
	else \
	  echo '$(NAME) run, built without proof in about three minutes (make build proves it):'; told=$$(mktemp); \
	  tests/unproved $(NAME) $(UNPROVED) -- run < $(EXAMPLE) 2> $$told; status=$$?; \
	  grep -vE '^(checked: |run=)' $$told >&2; rm -f $$told; \
	  [ ! -x $(UNPROVED) ] || echo 'The program without proof, slow and checked by tests alone, is $(UNPROVED)'; \
	  exit $$status; \
	fi

build:
	cd crates/$(NAME) && rt run -- run < ../../$(EXAMPLE)

install: $(PROGRAM) $(LIVE) $(YT)
	install -D -m 755 $(PROGRAM) $(BIN)
	install -D -m 644 share/$(NAME).1 $(MAN)
	install -D -m 644 share/$(NAME).bash $(BASH)
	install -D -m 644 share/_$(NAME) $(ZSH)
	install -D -m 644 share/$(NAME).fish $(FISH)
	install -D -m 755 $(LIVE) $(LIVE_BIN)
	install -D -m 644 share/$(LIVE_NAME).1 $(LIVE_MAN)
	install -D -m 644 share/$(LIVE_NAME).bash $(LIVE_BASH)
	install -D -m 644 share/_$(LIVE_NAME) $(LIVE_ZSH)
	install -D -m 644 share/$(LIVE_NAME).fish $(LIVE_FISH)
	install -D -m 755 $(YT) $(YT_BIN)
	install -D -m 644 share/$(YT_NAME).1 $(YT_MAN)
	install -D -m 644 share/$(YT_NAME).bash $(YT_BASH)
	install -D -m 644 share/_$(YT_NAME) $(YT_ZSH)
	install -D -m 644 share/$(YT_NAME).fish $(YT_FISH)

uninstall:
	rm -f $(BIN) $(MAN) $(BASH) $(ZSH) $(FISH)
	rm -f $(LIVE_BIN) $(LIVE_MAN) $(LIVE_BASH) $(LIVE_ZSH) $(LIVE_FISH)
	rm -f $(YT_BIN) $(YT_MAN) $(YT_BASH) $(YT_ZSH) $(YT_FISH)

$(PROGRAM):
	$(MAKE) build

$(LIVE):
	cd crates/$(LIVE_NAME) && rt run < ../../tests/live/session-alone/lines

$(YT):
	cd crates/$(YT_NAME) && rt run -- --version

$(DESKS):
	cd crates/try_desk && rt run < stdin > /dev/null

share:
	share/write

quick:
	tests/quick

checks: $(PROGRAM)
	tests/run

differential: $(PROGRAM)
	tests/differential $(SEED) $(COUNT)

hostile: $(PROGRAM) $(LIVE) $(YT) $(DESKS)
	JOBS=$${JOBS:-$$(nproc)} tests/hostile

test:
	.ci/run
