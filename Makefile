# make             lists all this, and starts nothing
# make try         replays a small script with the program as it stands, unproved: a minute or two
# make build       proves what the programs need, and what they promise, on every processor, and leaves them in bin/: half an hour to an hour the first time
# make bin/slptool proves the client alone, with what it needs, and leaves it in bin/: some ten minutes the first time, on 4 processors
# make demo        starts the server on an example site, and asks it with the client; runs the commands of the pages; checks templates, recipes, mistakes in files, units and how descriptors are shared: as make build, and two minutes
# make run         replays the script of make try, or script=FILE, with the proved program: half an hour the first time
# make day         replays a day of a small site, which examples/day.md explains: as make run
# make install     puts the programs of bin/, tools and pages below prefix=/usr/local: seconds, once make build is done
# make dist        makes an archive of what make install installs, and its checksum, in dist/: seconds, once make build is done
# make deb         makes a package of Debian of the same, with /etc/slpda, in dist/: seconds, once make build is done; needs dpkg-deb
# make uninstall   takes away what make install put, and leaves /etc/slpda alone: seconds
# make test        the gate, which compares docs/SPEC.md with the definitions, and proves and tries all from nothing: an hour or so, on 4 processors; needs python3
# make wrong       tries the wrong bodies beside the gate, or CRATE=slp_text those of one crate: 90 minutes or more, on 4 processors; needs python3
# make scripts     tries the tools of contrib/, make install, make deb and make/build over files and stand-ins alone, and compares pages with the code: a minute or so; needs python3
# make spec        writes docs/SPEC.md, all that is promised, from the definitions, and says how long it is: a second; needs python3
# make bench       counts what a message costs, and measures the server: minutes, once make build is done; needs valgrind, python3, cc
# make refusals    refuses each request for memory of the programs in turn: minutes, once make build is done; needs python3
# make hostile     sends the server ten million broken messages, or count=N, and asks whether anyone else noticed: minutes; needs make build, python3, and cc for plant=KIND
# make faults      has each system call of the server fail in turn, or those of call=NAME: a quarter of an hour or so, once make build is done; needs python3, cc
# What is proved is kept in crates/*/out: a second call proves what changed since, and what stands on it; a program that was made of the same files is not made again. All that builds needs python3.
.PHONY: help try build demo run day install dist deb uninstall test wrong scripts spec bench refusals hostile faults
.DEFAULT_GOAL := help

script := examples/printer.script

help:
	@sed -n 's/^# make/make/p' Makefile

try:
	@echo "Compiling without any proof: what follows shows how the program works, and proves nothing."
	@make/try $(script)

programs := slpda slpcheck slptool slpreplay

build:
	@make/build $(programs)
	@echo "The programs are $(addprefix bin/,$(programs))."

demo:
	@make/build slpda slpcheck slptool
	@examples/site/demo
	@contrib/tests/commands
	@contrib/tests/templates
	@contrib/tests/mistakes
	@contrib/tests/recipes
	@contrib/tests/descriptors
	@contrib/tests/unit

run:
	@make/build slpreplay
	@bin/slpreplay < $(script)

# Its last line is not a command, so the status is 3.
day:
	@make/build slpreplay
	@bin/slpreplay < crates/slpreplay/stdin || test $$? = 3

# What is installed lies below DESTDIR, where a package is made, and prefix. It is found there by its name, so uninstall takes the same.
prefix ?= /usr/local
DESTDIR ?=
root := $(DESTDIR)$(prefix)
tools := slpctl slpstat slplog slp slpls slpcast slplint
# what these share, which they find beside themselves or in ../share/slpda
modules := slpclient.py slpparting.py
# What a site can do without goes only where it is there: slpreplay, with its page.
spare := slpreplay
here = $(filter-out $(spare),$(programs)) $(shell for it in $(spare); do test ! -x bin/$$it || echo $$it; done)
pages = $(filter-out $(foreach it,$(filter-out $(here),$(programs)),docs/man/$(it).1),$(wildcard docs/man/*.[1578]))
page_of = $(root)/share/man/man$(subst .,,$(suffix $(1)))/$(notdir $(1))
# the page that make/codes writes
codes := $(call page_of,slp-codes.7)
completions := $(root)/share/bash-completion/completions
completed := slptool slpda slpcheck slpctl slpstat slplog slp slpls slpcast slplint
units := $(root)/lib/systemd/system
named := $(notdir $(wildcard examples/systemd/*))
# Documents lie to each other as they do here, so that their links lead somewhere.
documents := $(wildcard docs/*.md) README.md CHANGES.md CONTRIBUTING.md LICENSE VERSION contrib/README.md
doc := $(root)/share/doc/slpda
examples := $(doc)/examples
templates := $(notdir $(wildcard contrib/templates/*.template))
site := rules.toml printer.template slpda.toml
shared := $(root)/share/slpda
etc := $(DESTDIR)/etc/slpda

# The operator's files in /etc/slpda are never written over. slpda.toml comes last: where it is there already, the folder is left alone.
install:
	@for program in $(here); do test -x bin/$$program || \
	{ echo "There is no bin/$$program: run make build first."; exit 2; }; done
	install -d $(root)/bin $(completions) $(units) $(examples) $(shared) $(etc)
	install -m 755 $(addprefix bin/,$(here)) $(addprefix contrib/,$(tools)) $(root)/bin
	install -m 644 $(addprefix contrib/,$(modules)) $(shared)
	$(foreach page,$(pages),install -D -m 644 $(page) $(call page_of,$(page)) &&) true
	$(foreach it,$(documents),install -D -m 644 $(it) $(doc)/$(it) &&) true
	install -d $(dir $(codes)) && make/codes > $(codes) && chmod 644 $(codes)
	install -m 644 contrib/slptool.bash $(completions)/slptool
	$(foreach name,$(filter-out slptool,$(completed)),ln -sf slptool $(completions)/$(name) &&) true
	for unit in $(named); do sed 's|/usr/local/bin|$(prefix)/bin|g' examples/systemd/$$unit > $(units)/$$unit && chmod 644 $(units)/$$unit || exit 1; done
	install -m 644 $(addprefix examples/site/,$(site) closed.toml one-scope.toml) $(examples)
	install -d $(examples)/templates && install -m 644 $(addprefix contrib/templates/,$(templates)) $(examples)/templates
	@test ! -e $(etc)/slpda.toml || { echo "$(etc) stays as it is; examples are in $(examples)."; exit 0; }; \
	for file in $(site); do test -e $(etc)/$$file || install -m 644 examples/site/$$file $(etc) || exit 1; done; \
	echo "$(etc) has an example now: change it for the site."
	@echo "Then: slpctl check; systemctl daemon-reload; systemctl enable --now slpda.socket slpda.service"

dist:
	@make/dist

deb:
	@make/deb

uninstall:
	rm -f $(addprefix $(root)/bin/,$(programs) $(tools)) $(foreach page,$(wildcard docs/man/*.[1578]),$(call page_of,$(page))) $(codes)
	rm -f $(addprefix $(completions)/,$(completed)) $(addprefix $(units)/,$(named))
	rm -f $(addprefix $(examples)/,$(site) closed.toml one-scope.toml $(addprefix templates/,$(templates))) $(addprefix $(doc)/,$(documents)) $(addprefix $(shared)/,$(modules))
	@rmdir $(shared) $(examples)/templates $(examples) $(doc)/docs $(doc)/contrib $(doc) 2> /dev/null || true
	@echo "$(etc) is left as it is."

# What is promised changes only where the document of it does.
test:
	@contrib/tests/spec
	RT_JOBS=$$(make/lanes) rt ci

wrong:
	@wrong/try $(CRATE)

scripts:
	@contrib/try

spec:
	@make/spec

bench:
	@make/build script_rows
	@status=0; \
	for each in "instructions bin/slpreplay" "views bin/script_rows" "worst bin/slpreplay" "server bin/slpda"; do \
	  bench/$$each || status=1; \
	done; exit $$status

refusals:
	@make/build $(programs)
	@cd crates/unit_tests && rt test
	@refusals/try

# Another seed=TEXT than 1 brings other messages. plant=lost, late, turned, torn or left-out has the server itself do wrong, which has to be noticed.
hostile:
	@hostile/try bin/slpda $(or $(count),$(if $(plant),1000000,10000000)) $(or $(seed),1) $(plant)
	@$(if $(plant),true,hostile/beside)

faults:
	@faults/try bin/slpda $(or $(call),all) $(or $(most),40)

# One program alone, with what it needs.
.PHONY: $(addprefix bin/,$(programs))
$(addprefix bin/,$(programs)): bin/%:
	@make/build $*
