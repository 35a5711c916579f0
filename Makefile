# make install     puts bank, its programs, manual page, completions and sdk below PREFIX
# make uninstall   takes away what was put there
#
# PREFIX is ~/.local if it is not given; DESTDIR is put before it, for packages.

PREFIX ?= $(HOME)/.local
DESTDIR ?=
root := $(DESTDIR)$(PREFIX)
library := $(root)/lib/zarbulex
manual := $(root)/share/man/man1/bank.1
bash := $(root)/share/bash-completion/completions/bank
zsh := $(root)/share/zsh/site-functions/_bank

.PHONY: help install uninstall

help:
	@sed -n '1,4s/^# *//p' Makefile

install: uninstall
	./bank --programs > /dev/null
	install -d "$(library)/program" "$(library)/front/commands" "$(root)/bin"
	./bank --programs | xargs -d '\n' install -t "$(library)/program"
	install -m 644 program/kit "$(library)/program/kit"
	./bank --sources > "$(library)/program/sources"
	install bank "$(library)/bank"
	install front/pages "$(library)/front/pages"
	install -m 644 front/programs.sh front/words.sh front/running.sh front/groups front/statuses front/version "$(library)/front"
	install -m 644 front/commands/* "$(library)/front/commands"
	cp -R sdk LICENSE "$(library)"
	ln -s ../lib/zarbulex/bank "$(root)/bin/bank"
	install -d "$(dir $(manual))" "$(dir $(bash))" "$(dir $(zsh))"
	front/pages man > "$(manual)"
	front/pages bash > "$(bash)"
	front/pages zsh > "$(zsh)"

uninstall:
	rm -rf "$(library)"
	rm -f "$(root)/bin/bank" "$(manual)" "$(bash)" "$(zsh)"
