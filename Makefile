# Puts what is built, the companions, the manual, completions and editor files in place.
# `make install PREFIX=/usr/local` (also with DESTDIR), and `make uninstall` with the same words.

PREFIX = /usr/local
DESTDIR =
AT = $(DESTDIR)$(PREFIX)

BUILT = crates/rast/out/rast
COMPANIONS = rast-chart rast-many rast-states
MANUAL = $(notdir $(wildcard tools/man/*.1))
LIB = lib/ligvusto
VIM = share/vim/vimfiles
EMACS = share/emacs/site-lisp

help:
	@echo "make install PREFIX=/usr/local [DESTDIR=..] | make uninstall PREFIX=.. | make test"

$(BUILT):
	@echo "The program isn't built. Run this first, which proves and builds it:" >&2
	@echo "    (cd crates/rast && rt run -- check \"\$$PWD/../../examples/two.rast\")" >&2
	@exit 1

install: $(BUILT)
	install -d "$(AT)/bin" "$(AT)/$(LIB)/companions" "$(AT)/share/man/man1"
	install -m 755 $(BUILT) "$(AT)/bin/rast"
	install -m 644 tools/companions/*.py "$(AT)/$(LIB)/companions"
	install -m 644 tools/chart.html "$(AT)/$(LIB)/chart.html"
	for name in $(COMPANIONS); do \
	  install -m 755 tools/$$name "$(AT)/$(LIB)/$$name" && \
	  ln -sf ../$(LIB)/$$name "$(AT)/bin/$$name" || exit 1; done
	install -m 644 tools/man/*.1 "$(AT)/share/man/man1"
	install -d "$(AT)/share/bash-completion/completions" "$(AT)/share/zsh/site-functions" \
	  "$(AT)/share/fish/vendor_completions.d"
	for name in rast $(COMPANIONS); do \
	  install -m 644 tools/completions/rast.bash \
	    "$(AT)/share/bash-completion/completions/$$name" && \
	  install -m 644 tools/completions/rast.fish \
	    "$(AT)/share/fish/vendor_completions.d/$$name.fish" || exit 1; done
	install -m 644 tools/completions/_rast "$(AT)/share/zsh/site-functions/_rast"
	for kind in ftdetect ftplugin indent syntax; do \
	  install -d "$(AT)/$(VIM)/$$kind" && \
	  install -m 644 tools/editors/vim/$$kind/rast.vim "$(AT)/$(VIM)/$$kind" || exit 1; done
	install -d "$(AT)/$(EMACS)"
	install -m 644 tools/editors/emacs/rast-mode.el "$(AT)/$(EMACS)"

uninstall:
	rm -f "$(AT)/bin/rast"
	rm -rf "$(AT)/$(LIB)"
	for name in $(COMPANIONS); do rm -f "$(AT)/bin/$$name"; done
	for name in $(MANUAL); do rm -f "$(AT)/share/man/man1/$$name"; done
	for name in rast $(COMPANIONS); do \
	  rm -f "$(AT)/share/bash-completion/completions/$$name" \
	    "$(AT)/share/fish/vendor_completions.d/$$name.fish"; done
	rm -f "$(AT)/share/zsh/site-functions/_rast" "$(AT)/$(EMACS)/rast-mode.el"
	for kind in ftdetect ftplugin indent syntax; do rm -f "$(AT)/$(VIM)/$$kind/rast.vim"; done

test:
	tools/test

.PHONY: help install uninstall test
