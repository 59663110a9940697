# make install    proves and builds the program, and puts it, its man page and completions under PREFIX
# make uninstall  takes away what install put there
# make links      looks for dead links and long lines in the pages, for what they name
#                 and isn't there, and for mistakes in the man page
#
# The first build runs the gate, `rt ci`, which proves all on all cores: about an hour on four fast ones, and up to two
# and a half where these are slow. Where it has passed in this checkout, the program that it built is taken.

PREFIX = $(HOME)/.local
PROGRAM = crates/pcal/out/pcal
DESTDIR =

BIN = $(DESTDIR)$(PREFIX)/bin
MAN = $(DESTDIR)$(PREFIX)/share/man/man1
BASH = $(DESTDIR)$(PREFIX)/share/bash-completion/completions
ZSH = $(DESTDIR)$(PREFIX)/share/zsh/site-functions
FISH = $(DESTDIR)$(PREFIX)/share/fish/vendor_completions.d

.PHONY: build install uninstall links

# what a proof or the build of the program reads
SOURCES = crates.txt $(shell find crates -name out -prune -o -name '*.rt' -print -o -name '*.antt' -print)

build: $(PROGRAM)

# rt proves and builds what has changed, and tries all of it
$(PROGRAM): $(SOURCES)
	rt ci

install: build
	install -d "$(BIN)" "$(MAN)" "$(BASH)" "$(ZSH)" "$(FISH)"
	install -m 755 $(PROGRAM) "$(BIN)/pcal"
	install -m 644 man/pcal.1 "$(MAN)/pcal.1"
	install -m 644 completions/pcal.bash "$(BASH)/pcal"
	install -m 644 completions/_pcal "$(ZSH)/_pcal"
	install -m 644 completions/pcal.fish "$(FISH)/pcal.fish"

uninstall:
	rm -f "$(BIN)/pcal" "$(MAN)/pcal.1" "$(BASH)/pcal" "$(ZSH)/_pcal" "$(FISH)/pcal.fish"

links:
	python3 tools/links.py
	python3 tools/rows.py
	python3 tools/walk.py
	if command -v mandoc > /dev/null; then mandoc -Tlint man/pcal.1; fi
