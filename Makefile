# 'make help' says what each target does.
export PREFIX ?= /usr/local
export DESTDIR
export CAPTURE ?= samples/01-document.hex

# One run of scripts/build.sh makes all products; build/built is as old as its start. Folders count as sources, since files in them may go.
PRODUCTS := build/lib/liblm89.a build/lib/liblm89_list.a build/lib/lm89.h build/lib/lm89_list.h build/bin/lm89
SOURCES := crates.txt include/lm89.h include/lm89_list.h c/list.c command/lm89.c scripts/build.sh scripts/machine.sh \
    $(shell find crates -mindepth 2 \( -name must-fail -o -name out \) -prune -o \( -type d -o -name '*.rt' -o -name '*.antt' \) -print)
MISSING := $(filter-out $(wildcard $(PRODUCTS)),$(PRODUCTS))
KIT := $(wildcard $(shell realpath "$$(command -v rt)" 2>/dev/null | sed 's,/[^/]*/[^/]*$$,/KIT-ID,'))
ANOTHER_KIT := $(if $(KIT),$(shell cmp -s $(KIT) build/kit || echo yes))

.PHONY: all list lib test misreadings speed install uninstall clean help $(if $(MISSING)$(ANOTHER_KIT),build/built)
.NOTPARALLEL:

all: build/built ## build libraries and command: the default

build/built: $(SOURCES)
	@scripts/build.sh >&2

list: all ## list a capture, CAPTURE=FILE: raw bytes, or hex text in a file whose name ends with .hex
	@case "$$CAPTURE" in \
	*.hex) bytes="build/$$(basename -- "$$CAPTURE" .hex).bytes"; \
	    python3 tests/hex.py "$$CAPTURE" >"$$bytes" && build/bin/lm89 list "$$bytes" ;; \
	*) build/bin/lm89 list -- "$$CAPTURE" ;; \
	esac

lib: all ## build, and name what a C program includes and links
	@ls build/lib/*

test: ## the gate: prove everything from nothing, try the must-fail edits, run the tests
	.ci/run

misreadings: ## put misreadings of the rules into the definitions: does a theorem notice each?
	@python3 tests/misreadings.py

speed: ## nanoseconds a record, against the second program; megabytes a second of the listing
	@scripts/speed.sh

install: all ## put headers, libraries, command and manual page under PREFIX, /usr/local if not given
	@scripts/install.sh install

uninstall: ## remove the files that install puts under PREFIX
	@scripts/install.sh uninstall

clean: ## remove all that was built or proved
	rm -rf build crates/*/out

help: ## list the targets
	@awk -F ':.*## ' '/^[a-z]+:.*## / { printf "make %-12s %s\n", $$1, $$2 }' Makefile
