# Installs circ: make install [PREFIX=/usr/local] [DESTDIR=]. The program is the one that bin/circ runs: what was proved and built here, else
# what is shipped in ship/. The tools for users are installed as circ-explain and so on. `make uninstall` takes all of it away again.
PREFIX ?= /usr/local
share := $(DESTDIR)$(PREFIX)/share
LIBRARY := BITS STREAM TREE LANG PROC
TOOLS := explain read-proof proof-html relation-graph regex-word

all:
	@bin/circ --where

install:
	program=$$(bin/circ --where) && install -D -m 755 "$$program" $(DESTDIR)$(PREFIX)/bin/circ
	install -D -m 644 docs/circ.1 $(share)/man/man1/circ.1
	install -D -m 644 completions/circ.bash $(share)/bash-completion/completions/circ
	install -D -m 644 completions/_circ $(share)/zsh/site-functions/_circ
	install -d $(share)/circ/library $(share)/circ/tools
	install -m 755 $(TOOLS:%=tools/%) $(share)/circ/tools
	install -m 644 tools/proof_*.py $(share)/circ/tools
	for name in $(TOOLS); do ln -sf ../share/circ/tools/$$name $(DESTDIR)$(PREFIX)/bin/circ-$$name || exit; done
	for name in $(LIBRARY); do $(DESTDIR)$(PREFIX)/bin/circ library $$name >$(share)/circ/library/$$name.circ || exit; done

uninstall:
	rm -f $(DESTDIR)$(PREFIX)/bin/circ $(TOOLS:%=$(DESTDIR)$(PREFIX)/bin/circ-%) $(share)/man/man1/circ.1
	rm -f $(share)/bash-completion/completions/circ $(share)/zsh/site-functions/_circ
	rm -rf $(share)/circ

.PHONY: all install uninstall
