# The program is built as bin/bgpdump, by rt, which proves it first.

PREFIX ?= /usr/local
NAME ?= bgpdump

SOURCES := crates.txt $(shell find crates -name out -prune -o -type f -print)

# What the checks of the built program run, and that of rows.
PROGRAM ?= bin/bgpdump
ROWS ?= bin/rows

.PHONY: all demo test edits checks bench install deb clean

all: bin/bgpdump

# rt leaves the program where it ran it, here on an empty input.
bin/bgpdump: $(SOURCES)
	@echo "rt proves what it builds: some twenty minutes the first time, on four cores."
	packaging/libraries.py bgpdump
	cd crates/bgpdump && rt run -- -m /dev/null
	mkdir -p bin
	cp crates/bgpdump/out/bgpdump $@

# It fails where the program writes anything else than is stored beside an example.
demo: bin/bgpdump
	examples/demo.sh bin/bgpdump

# First what takes seconds. rt ci leaves the programs that it proved and built.
test:
	checks/quick.py
	checks/sizes.py
	checks/trusted.py
	rt ci
	$(MAKE) --no-print-directory checks PROGRAM=crates/bgpdump/out/bgpdump ROWS=crates/rows/out/rows

# The edits of inner functions, which the gate doesn't try: minutes to hours. CRATE=.. tries those of
# that crate alone, CRATE=../EDIT one edit, whether the gate tries it or not.
edits:
	checks/inner_edits.py $(CRATE)

# Its texts and statuses, over examples/, inputs of their own and damaged files, rows that are made, the
# package for Debian and what is installed, the completion for bash, the commands of the cookbook, and the
# form of the manual page, where mandoc is there.
checks: $(PROGRAM) $(ROWS)
	examples/demo.sh $(PROGRAM) >/dev/null
	checks/program.py $(PROGRAM)
	checks/damage.py $(PROGRAM)
	checks/scripts.py $(PROGRAM)
	checks/players.py $(ROWS)
	checks/stores.py $(ROWS)
	checks/prefixes.py $(ROWS)
	checks/rows_large.py $(ROWS)
	checks/refusals.py $(PROGRAM) --rows $(ROWS)
	checks/shapes.py $(PROGRAM)
	checks/slow_input.py $(PROGRAM)
	checks/package.py $(PROGRAM)
	checks/completion.py $(PROGRAM)
	examples/cookbook.py $(PROGRAM)
	if command -v mandoc >/dev/null; then mandoc -T lint -W warning man/bgpdump.1; fi

# FILE=.. measures over that file alone.
bench: bin/bgpdump bin/store_bench
	bench/measure.py bin/bgpdump bin/store_bench $(FILE)

bin/store_bench: $(SOURCES)
	packaging/libraries.py store_bench
	cd crates/store_bench && rt run
	mkdir -p bin
	cp crates/store_bench/out/store_bench $@

bin/rows: $(SOURCES)
	packaging/libraries.py rows
	cd crates/rows && rt run -- data/changes.rows
	mkdir -p bin
	cp crates/rows/out/rows $@

# NAME=.. installs the program, its manual page and its completion by another name, beside Debian's.
install: SHARE = $(DESTDIR)$(PREFIX)/share
install: COMPLETIONS = $(SHARE)/bash-completion/completions
install: DOCUMENTS = $(SHARE)/doc/rumpleja
install: $(PROGRAM)
	mkdir -p "$(DESTDIR)$(PREFIX)/bin" "$(SHARE)/man/man1" "$(COMPLETIONS)" "$(DOCUMENTS)/docs" "$(DOCUMENTS)/examples"
	cp $(PROGRAM) "$(DESTDIR)$(PREFIX)/bin/$(NAME)"
	cp man/bgpdump.1 "$(SHARE)/man/man1/$(NAME).1"
	sed '/^complete /s/bgpdump$$/$(NAME)/' packaging/bgpdump.bash >"$(COMPLETIONS)/$(NAME)"
	cp README.md "$(DOCUMENTS)"
	cp docs/*.* "$(DOCUMENTS)/docs"
	cp examples/*.* "$(DOCUMENTS)/examples"

# A package for Debian, in bin/, that takes the place of Debian's bgpdump.
deb: bin/bgpdump
	packaging/deb.py bin/bgpdump bin

clean:
	rm -rf bin crates/*/out
