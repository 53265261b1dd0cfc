# make build      proves and builds the program
# make run        the same, and runs it on an example
# make install    the program, its manual page and completions; PREFIX, DESTDIR; make uninstall removes them
# make check      the gate: every proof, test, refused edit, program and script that did not pass on this machine before (docs/GATE.md);
#                 MINUTES=N begins no refused edits N minutes after it began, and ends those that are being tried 10 minutes later
# make speed      times the program on named inputs and graphs, and counts its instructions where valgrind is there; OTHER=PROGRAM: beside another
# make check-all  the kit's own gate, which uses nothing of the store that make check keeps; to be passed before a release

PREFIX ?= /usr/local
# The program that is installed.
PROGRAM ?= crates/dhall/out/dhall

BIN = $(DESTDIR)$(PREFIX)/bin/dhall
MANUAL = $(DESTDIR)$(PREFIX)/share/man/man1/dhall.1
BASH_WORDS = $(DESTDIR)$(PREFIX)/share/bash-completion/completions/dhall
ZSH_WORDS = $(DESTDIR)$(PREFIX)/share/zsh/site-functions/_dhall
FISH_WORDS = $(DESTDIR)$(PREFIX)/share/fish/vendor_completions.d/dhall.fish

.PHONY: build run install uninstall check check-all speed

# The proved program, crates/dhall/out/dhall. It says which crate it is at.
build:
	python3 tools/program.py

# The main job on an example.
run: build
	cd crates/dhall/data && ../out/dhall normalize < ../stdin

# The program, its manual page, and completions. It builds nothing.
install:
	@test -x $(PROGRAM) || { echo "there is no $(PROGRAM): run make build first" >&2; exit 1; }
	install -D -m 755 $(PROGRAM) $(BIN)
	install -D -m 644 docs/dhall.1 $(MANUAL)
	install -D -m 644 completions/dhall.bash $(BASH_WORDS)
	install -D -m 644 completions/_dhall $(ZSH_WORDS)
	install -D -m 644 completions/dhall.fish $(FISH_WORDS)

uninstall:
	rm -f $(BIN) $(MANUAL) $(BASH_WORDS) $(ZSH_WORDS) $(FISH_WORDS)

# What it says last is how much passed, failed and was left.
check:
	tools/gate $(if $(MINUTES),--minutes $(MINUTES))

check-all:
	rt ci

# Tables of times and of instructions, as docs/PERFORMANCE.md has them. OTHER is another Dhall program, by its path.
speed:
	python3 tools/speed.py --program $(PROGRAM) $(if $(OTHER),--compare $(OTHER))
	@if command -v valgrind > /dev/null; then python3 tools/instructions.py --program $(PROGRAM) $(if $(OTHER),--compare $(OTHER)); else echo "valgrind is not here: no instructions counted"; fi
