# make check tests caf (./test), make install PREFIX=DIR installs it (./install).
PREFIX = /usr/local

check:
	./test

install:
	./install $(DESTDIR)$(PREFIX)

uninstall:
	./install --uninstall $(DESTDIR)$(PREFIX)

.PHONY: check install uninstall
