# `make` builds the program without its proofs (tools/build), `make proved` proves and builds it (tools/prove), which then takes its
# place; `make install PREFIX=..` installs the proved program, or else the other one, with its page and its completion, `make dist`
# packs the proved one for machines without the toolchain (tools/dist), `make check` is the whole gate.
PREFIX = /usr/local
DESTDIR =
export PREFIX DESTDIR

.PHONY: all proved install uninstall dist check

all:
	@tools/build

proved:
	@tools/prove

install:
	@kind=$$(tools/build --launch) && \
	echo "kc96: installing the $$kind program below $$DESTDIR$$PREFIX" && \
	install -d "$$DESTDIR$$PREFIX/bin" "$$DESTDIR$$PREFIX/share/man/man1" "$$DESTDIR$$PREFIX/share/bash-completion/completions" && \
	install -m 755 "out/$$kind/kc96" "$$DESTDIR$$PREFIX/bin/kc96" && \
	install -m 644 man/kc96.1 "$$DESTDIR$$PREFIX/share/man/man1/kc96.1" && \
	install -m 644 completion/kc96.bash "$$DESTDIR$$PREFIX/share/bash-completion/completions/kc96"

uninstall:
	rm -f "$$DESTDIR$$PREFIX/bin/kc96" "$$DESTDIR$$PREFIX/share/man/man1/kc96.1" \
	    "$$DESTDIR$$PREFIX/share/bash-completion/completions/kc96"

dist:
	@tools/dist

check:
	bash .ci/run
