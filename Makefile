# make: target/libwindow.a, the calls and the texts of their answers.
# make install PREFIX=.. [DESTDIR=..]: headers, archive and pkg-config file; make uninstall takes them away again.
# It needs GNU make, cc and the Rattle toolchain, which proves what it compiles.
PREFIX = /usr/local
CFLAGS = -O2

version = $(shell sed -n 's/^\#define WINDOW_VERSION //p' include/window.h)
headers = include/window.h include/window_text.h
sources = crates.txt $(shell find crates \( -name must-fail -o -name out \) -prune -o -print)
root = $(DESTDIR)$(PREFIX)

target/libwindow.a: target/staticlib/libwindow.a target/window_text.o
	cp target/staticlib/libwindow.a $@.new
	$(AR) r $@.new target/window_text.o
	mv $@.new $@

target/window_text.o: src/window_text.c $(headers)
	mkdir -p target
	$(CC) -std=c99 $(CFLAGS) -Iinclude -c -o $@ src/window_text.c

# A crate's static library.
target/staticlib/lib%.a: $(sources)
	cd crates/$* && rt lib
	mkdir -p target/staticlib
	cp crates/$*/out/lib$*.a $@

install: target/libwindow.a
	install -d $(root)/include $(root)/lib/pkgconfig
	install -m 644 $(headers) $(root)/include
	install -m 644 target/libwindow.a $(root)/lib
	sed 's|@PREFIX@|$(PREFIX)|; s|@VERSION@|$(version)|' window.pc.in >$(root)/lib/pkgconfig/window.pc

uninstall:
	rm -f $(headers:%=$(root)/%) $(root)/lib/libwindow.a $(root)/lib/pkgconfig/window.pc

.PHONY: install uninstall
