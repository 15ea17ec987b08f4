.DEFAULT_GOAL := help
.PHONY: help unproved demo try build install uninstall test cost serve

help:
	@echo 'make demo       compiles the program without any proof, runs a short session, and shows its history: three minutes'
	@echo 'make try        the same up to a running server, and leaves it running'
	@echo 'make build      proves and links the programs, bin/adbhub and bin/adbexplain: most of an hour the first time, then what changed'
	@echo 'make install    copies bin/adbhub, its manual page and its completion below PREFIX (/usr/local); make uninstall'
	@echo 'make test       the gate: every proof, must-fail edit, test and program, and the built program run as a user runs it'
	@echo 'make serve      builds the program, starts a server with a model device, and says how to ask it something'
	@echo 'make cost       builds the program, and tells how replay and check grow with what they read'

# Programs without any proof, for a first look. They are compiled anew if the source of a crate changed.
UNPROVED := $(patsubst crates/%,bin/unproved/%,$(wildcard crates/adbhub crates/adbexplain))
SOURCE := crates.txt $(wildcard $(foreach part,src/*.rt src/*/*.rt specs/*.antt specs/*/*.antt,crates/*/$(part)))

bin/unproved/%: $(SOURCE)
	@mkdir -p bin/unproved
	@echo 'Compiling $* without proving anything, as $@: up to three processor minutes, and again only if its source changes.'
	@examples/unproved_build $* $@

unproved:
	@+$(MAKE) --no-print-directory --jobs=2 $(UNPROVED)
	@echo 'Nothing of bin/unproved/adbhub is proved: make build proves this source, and makes bin/adbhub.'

demo: unproved
	@examples/demo bin/unproved/adbhub

try: unproved
	@examples/demo bin/unproved/adbhub --serve

# Proves the crates below the program side by side, each when those that it stands on are proved, and then the program.
# Lists of crates.txt may be of neighbours or of all crates below.
JOBS := $(shell nproc)
BELOW := $(shell awk -F: '{ split($$1, head, " "); needs[head[1]] = $$2 } \
  function walk(crate, words, i, n) { \
    if (!(crate in needs) || crate in seen) return; \
    seen[crate]; n = split(needs[crate], words, " "); \
    for (i = 1; i <= n; i++) walk(words[i]); \
    print crate } \
  END { walk("adbhub"); walk("adbexplain") }' crates.txt)
LIBRARIES := $(filter-out adbhub adbexplain,$(BELOW))
STANDING := bin/standing

build:
	@mkdir -p bin && rm -f $(STANDING) && touch $(STANDING)
	@+$(MAKE) --no-print-directory --keep-going --jobs=$(JOBS) $(LIBRARIES:%=library-%) \
	  || { echo "$$(wc -l < $(STANDING)) of $(words $(BELOW)) crates stand. Not yet:" \
	  $$(printf '%s\n' $(LIBRARIES) | grep -vxFf $(STANDING)); exit 1; }
	@cd crates/adbhub && rt run -- replay < ../../examples/version.capture > /dev/null
	@cp crates/adbhub/out/adbhub bin/adbhub
	@cd crates/adbexplain && rt run < stdin > /dev/null
	@cp crates/adbexplain/out/adbexplain bin/adbexplain
	@echo '$(words $(BELOW)) of $(words $(BELOW)) crates stand: bin/adbhub and bin/adbexplain are proved and linked'

define library
.PHONY: library-$(1)
library-$(1): $(patsubst %,library-%,$(filter $(LIBRARIES),$(shell sed -n 's/^$(1)\( [^:]*\)\{0,1\}://p' crates.txt)))
	@cd crates/$(1) && rt lib > ../../bin/$(1).log 2>&1 || { cat ../../bin/$(1).log; echo '$(1) does not stand'; exit 1; }
	@echo $(1) >> $(STANDING) && echo "$$$$(wc -l < $(STANDING)) of $(words $(BELOW)) crates stand: $(1)"
endef
ifneq ($(filter library-%,$(MAKECMDGOALS)),)
$(foreach crate,$(LIBRARIES),$(eval $(call library,$(crate))))
endif

# What `make build` left is installed. PROGRAM may name another build; adbexplain is installed if it is in the same folder.
PROGRAM ?= bin/adbhub
EXPLAINER := $(wildcard $(dir $(PROGRAM))adbexplain)
PREFIX ?= /usr/local
AT := $(DESTDIR)$(PREFIX)

install:
	@test -x $(PROGRAM) || { echo '$(PROGRAM) is not built: make build'; exit 1; }
	install -D -m 755 $(PROGRAM) $(AT)/bin/adbhub
	$(if $(EXPLAINER),install -D -m 755 $(EXPLAINER) $(AT)/bin/adbexplain)
	install -D -m 644 docs/adbhub.1 $(AT)/share/man/man1/adbhub.1
	install -D -m 644 examples/adbhub.bash $(AT)/share/bash-completion/completions/adbhub

uninstall:
	rm -f $(addprefix $(AT)/,bin/adbhub bin/adbexplain share/man/man1/adbhub.1 share/bash-completion/completions/adbhub)

test:
	.ci/run

# A folder whose build.sh makes another program that replays, to compare with; without it, or without rustc, nothing is.
YARDSTICK ?= ../shared/rust_replay
cost: build
	@examples/replay_cost bin/adbhub $(YARDSTICK)

serve: build
	@echo 'ask it by another terminal, with the port that it names:'
	@echo '  adb -H 127.0.0.1 -P <port> shell echo hi'
	@echo "  python3 -c 'import socket; s = socket.create_connection((\"127.0.0.1\", <port>)); s.sendall(b\"000Chost:version\"); print(s.recv(99))'"
	@bin/adbhub serve --port 0 --device model-1
