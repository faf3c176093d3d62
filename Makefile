# Needs the Rattle kit's `rt` on the PATH.
VERSION = 0.1.0
PREFIX ?= /usr/local
INSTALLED = $(DESTDIR)$(PREFIX)
PROGRAM = crates/dired_cli/out/dired_cli
SOURCES = crates.txt $(wildcard crates/*/src/*.rt crates/*/specs/*.antt crates/*/proofs/*.antt)

CASES = crates/dired_cases/out/dired_cases
PLANS = crates/commit_cases/out/commit_cases
COUNT ?= 10000
SEED ?=

.PHONY: demo test install uninstall deb bench fuzz crash

# Proves and builds the program, and shows in a throw-away folder an edit, the same edit killed in the middle, and its recovery.
demo: $(PROGRAM)
	bash scripts/demo.sh $(PROGRAM)

# The gate: every proof, must-fail edit, test and program.
test:
	bash .ci/run

install: $(PROGRAM)
	install -D -m 755 $(PROGRAM) $(INSTALLED)/bin/dired
	install -D -m 755 scripts/wdired $(INSTALLED)/bin/wdired
	install -D -m 644 man/dired.1 $(INSTALLED)/share/man/man1/dired.1
	install -D -m 644 man/wdired.1 $(INSTALLED)/share/man/man1/wdired.1
	install -D -m 644 completions/dired.bash $(INSTALLED)/share/bash-completion/completions/dired
	ln -sf dired $(INSTALLED)/share/bash-completion/completions/wdired
	install -D -m 644 completions/_dired $(INSTALLED)/share/zsh/site-functions/_dired
	install -D -m 644 completions/dired.fish $(INSTALLED)/share/fish/vendor_completions.d/dired.fish
	for part in ftdetect ftplugin syntax; do install -D -m 644 editors/vim/$$part/dired.vim $(INSTALLED)/share/vim/vimfiles/$$part/dired.vim; done
	install -D -m 644 editors/emacs/dired-listing.el $(INSTALLED)/share/emacs/site-lisp/dired-listing.el

uninstall:
	rm -f $(INSTALLED)/bin/dired $(INSTALLED)/bin/wdired
	rm -f $(INSTALLED)/share/man/man1/dired.1 $(INSTALLED)/share/man/man1/wdired.1
	rm -f $(INSTALLED)/share/bash-completion/completions/dired $(INSTALLED)/share/bash-completion/completions/wdired
	rm -f $(INSTALLED)/share/zsh/site-functions/_dired $(INSTALLED)/share/fish/vendor_completions.d/dired.fish
	for part in ftdetect ftplugin syntax; do rm -f $(INSTALLED)/share/vim/vimfiles/$$part/dired.vim; done
	rm -f $(INSTALLED)/share/emacs/site-lisp/dired-listing.el

# A package for Debian, dired_$(VERSION)_amd64.deb, of what `install` puts in place.
deb: $(PROGRAM)
	bash scripts/deb.sh $(VERSION)

# Cases that are drawn, and compared with a model of the rules.
fuzz: $(CASES) $(PLANS)
	bash scripts/fuzz-cases.sh generate.py $(CASES) $(COUNT) $(SEED)
	bash scripts/fuzz-cases.sh generate_plans.py $(PLANS) $(COUNT) $(SEED)
	bash scripts/fuzz-cases.sh generate_commits.py $(PLANS) $(COUNT) $(SEED)
	bash scripts/fuzz-cases.sh generate_recoveries.py $(PLANS) $(COUNT) $(SEED)

# The program is killed at each of its changing calls on real folders, and each of them fails; what stands is recovered.
crash: $(PROGRAM)
	python3 scripts/crash.py $(PROGRAM) --edits 30

bench: $(PROGRAM) $(PLANS)
	bash bench/one-name.sh $(PROGRAM)
	bash bench/lines.sh $(PROGRAM)
	bash bench/listing.sh $(PROGRAM)
	bash bench/edits.sh $(PROGRAM)
	bash bench/check.sh $(PROGRAM)
	bash bench/commits.sh $(PROGRAM)
	bash bench/sync.sh
	bash bench/plans.sh $(PLANS)

# `rt run` proves, builds and runs; without words the program ends with status 1, so what counts is that it was built.
$(PROGRAM): $(SOURCES)
	rm -f $@
	cd crates/dired_cli && { rt run > out.log 2>&1 || true; }
	test -x $@ || { tail -20 crates/dired_cli/out.log; exit 1; }
	rm -f crates/dired_cli/out.log

# A program of cases ends well on an empty table.
$(CASES) $(PLANS): $(SOURCES)
	rm -f $@
	cd $(dir $(@D)) && { rt run < /dev/null > out.log 2>&1 || true; }
	test -x $@ || { tail -20 $(dir $(@D))out.log; exit 1; }
	rm -f $(dir $(@D))out.log
