# make run: a key and a signature from the editor's half, checked by the module's half, then the same with its last digit changed; make test: the gate;
# make bench: the table of the benchmark; make install PREFIX=..: headers, archives and pkg-config files of both halves under PREFIX.
.PHONY: run test bench install

PREFIX ?= /usr/local
HALVES := wave_checker wave_signer
CODE := crates.txt $(shell find crates -name out -prune -o -name '*.rt' -print)

run:
	tests/programs sign_lines check_lines
	target/bin/sign_lines | target/bin/check_lines
	target/bin/sign_lines | sed '$$s/1$$/2/' | target/bin/check_lines

test:
	.ci/run

bench:
	bench/run

# an archive is made where it is missing or older than the code
target/staticlib/lib%.a: $(CODE)
	tests/archives $*

install: $(HALVES:%=target/staticlib/lib%.a)
	install -d '$(DESTDIR)$(PREFIX)/include' '$(DESTDIR)$(PREFIX)/lib/pkgconfig'
	install -m 644 $(HALVES:%=include/%.h) '$(DESTDIR)$(PREFIX)/include'
	install -m 644 $(HALVES:%=target/staticlib/lib%.a) '$(DESTDIR)$(PREFIX)/lib'
	set -e; for half in $(HALVES); do \
	    sed 's|@PREFIX@|$(abspath $(PREFIX))|' "include/$$half.pc.in" >'$(DESTDIR)$(PREFIX)/lib/pkgconfig/'"$$half.pc"; \
	done
