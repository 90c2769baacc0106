# Installs the program, its man page, and completions below PREFIX. DESTDIR is put before each path, as packages need it.
#
#     make install [PREFIX=/usr/local] [DESTDIR=]
#     make uninstall [PREFIX=/usr/local] [DESTDIR=]
#     make dist        packs the program that the gate has built, below out/: packaging/release.py says how
#
# For those who change the repository (CONTRIBUTING.md):
#
#     make check CRATE=NAME    proves one crate
#     make docs-check          checks the pages against the sources, in seconds and without the program
#     make test                plays the cases, examples and questions with the program that is built
#
# `make` builds the program first, where it is not built; so does `make install`. The program goes below libexec/, and the script
# that starts it, below bin/. So does `labask`, which is a link to its folder below libexec/.
PREFIX = /usr/local
DESTDIR =
bindir = $(PREFIX)/bin
libexecdir = $(PREFIX)/libexec
askdir = $(libexecdir)/ask
mandir = $(PREFIX)/share/man
bashdir = $(PREFIX)/share/bash-completion/completions
zshdir = $(PREFIX)/share/zsh/site-functions
vimdir = $(PREFIX)/share/vim/vimfiles/syntax

all:
	./labsys check <examples/read_by_capability.txt >/dev/null

install: all
	install -d '$(DESTDIR)$(bindir)' '$(DESTDIR)$(libexecdir)' '$(DESTDIR)$(mandir)/man1' '$(DESTDIR)$(bashdir)' '$(DESTDIR)$(zshdir)' '$(DESTDIR)$(vimdir)'
	install -m 755 labsys '$(DESTDIR)$(bindir)/labsys'
	install -m 755 crates/labsys/out/labsys '$(DESTDIR)$(libexecdir)/labsys'
	rm -rf '$(DESTDIR)$(askdir)'
	install -d '$(DESTDIR)$(askdir)'
	install -m 755 ask/labask '$(DESTDIR)$(askdir)/labask'
	cd ask/src && find labask -name '*.py' -o -name '*.css' -o -name '*.js' | while read -r file; do \
	    install -D -m 644 "$$file" '$(DESTDIR)$(askdir)/src/'"$$file" || exit; \
	done
	ln -srf '$(DESTDIR)$(askdir)/labask' '$(DESTDIR)$(bindir)/labask'
	install -m 644 docs/labsys.1 docs/labask.1 '$(DESTDIR)$(mandir)/man1'
	install -m 644 completion/labsys.bash '$(DESTDIR)$(bashdir)/labsys'
	install -m 644 completion/_labsys '$(DESTDIR)$(zshdir)/_labsys'
	install -m 644 completion/labask.bash '$(DESTDIR)$(bashdir)/labask'
	install -m 644 completion/_labask '$(DESTDIR)$(zshdir)/_labask'
	install -m 644 editor/labsys.vim '$(DESTDIR)$(vimdir)/labsys.vim'

check:
	@test -n '$(CRATE)' || { echo 'usage: make check CRATE=NAME' >&2; exit 2; }
	cd 'crates/$(CRATE)' && rt check

docs-check:
	tests/check_pages.sh

test: all
	tests/check_program.sh

dist:
	@PYTHONDONTWRITEBYTECODE=1 python3 packaging/release.py pack

uninstall:
	rm -f '$(DESTDIR)$(bindir)/labsys' '$(DESTDIR)$(libexecdir)/labsys' '$(DESTDIR)$(mandir)/man1/labsys.1'
	rm -f '$(DESTDIR)$(bindir)/labask' '$(DESTDIR)$(mandir)/man1/labask.1'
	rm -rf '$(DESTDIR)$(askdir)'
	rm -f '$(DESTDIR)$(bashdir)/labsys' '$(DESTDIR)$(zshdir)/_labsys' '$(DESTDIR)$(bashdir)/labask' '$(DESTDIR)$(zshdir)/_labask' '$(DESTDIR)$(vimdir)/labsys.vim'

.PHONY: all install check docs-check test dist uninstall
