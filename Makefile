# `make mao` proves the program and leaves it at ./mao; `make check` runs the gate; `make bench` prints ratios.
.PHONY: mao check bench install uninstall

PREFIX = /usr/local

mao:
	cd crates/mao_main && rt run -- --mao=NOPKILL < /dev/null
	cp crates/mao_main/out/mao_main mao

check:
	.ci/run

# The bench's reader cuts a text and reads its entries, and keeps none.
bench: mao
	cd crates/reading_bench && rt run < /dev/null
	@if command -v python3 > /dev/null; then python3 bench/same_output.py ./mao && python3 bench/ratios.py ./mao; else echo "python3 isn't installed: skipped"; fi

# The program that `make mao` left, its manual page, and the script that stands as `as` in a folder for `gcc -B`.
install:
	@test -x mao || { echo "there is no ./mao yet: run \`make mao\` first" >&2; exit 1; }
	install -d $(DESTDIR)$(PREFIX)/bin $(DESTDIR)$(PREFIX)/share/man/man1 $(DESTDIR)$(PREFIX)/libexec/mao
	install -m 755 mao $(DESTDIR)$(PREFIX)/bin/mao
	install -m 755 tools/mao-as $(DESTDIR)$(PREFIX)/bin/mao-as
	install -m 644 docs/mao.1 $(DESTDIR)$(PREFIX)/share/man/man1/mao.1
	ln -sf ../../bin/mao-as $(DESTDIR)$(PREFIX)/libexec/mao/as

uninstall:
	rm -f $(DESTDIR)$(PREFIX)/bin/mao $(DESTDIR)$(PREFIX)/bin/mao-as $(DESTDIR)$(PREFIX)/share/man/man1/mao.1 $(DESTDIR)$(PREFIX)/libexec/mao/as
	-rmdir $(DESTDIR)$(PREFIX)/libexec/mao 2> /dev/null
