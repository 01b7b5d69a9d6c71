# make            the static and the shared library, and the command
# make check      every test of them
# make install    under PREFIX (and DESTDIR before it); make uninstall takes it away again
# make clean      all of them away but the static library, which stands for the proofs
PREFIX = /usr/local
DESTDIR =
CFLAGS = -O2
WARNINGS = -Wall -Wextra -Werror
INSTALL = install

header := include/mungkelas.h
number = $(shell sed -n 's/^.define MUNGKELAS_VERSION_$(1) //p' $(header))
major := $(call number,MAJOR)
version := $(major).$(call number,MINOR).$(call number,PATCH)

static := target/staticlib/libmungkelas.a
shared := target/lib/libmungkelas.so.$(version)
command := target/cli/mungkelas
objects := $(patsubst cli/%.c,target/cli/%.o,$(wildcard cli/*.c))
places := include lib lib/pkgconfig bin share/man/man1 share/doc/mungkelas
docs := README.md CHANGELOG.md LICENSE NOTICE

.DELETE_ON_ERROR:
.PHONY: all check install uninstall clean always

all: $(static) $(shared) $(command)

# The script looks whether anything has to be done.
$(static): always
	examples/library

$(shared): $(static) mungkelas.map $(header)
	mkdir -p $(@D)
	$(CC) -shared -o $@ -Wl,-soname,libmungkelas.so.$(major) -Wl,--version-script=mungkelas.map -Wl,-z,defs,-z,text,-z,relro,-z,now,-z,noexecstack \
	  $(LDFLAGS) -Wl,--whole-archive $(static) -Wl,--no-whole-archive
	ln -sf $(@F) target/lib/libmungkelas.so.$(major)
	ln -sf $(@F) target/lib/libmungkelas.so

target/cli/%.o: cli/%.c cli/cli.h $(header) Makefile
	mkdir -p $(@D)
	$(CC) -std=c11 -D_GNU_SOURCE -pthread $(CFLAGS) $(WARNINGS) -I include -c -o $@ $<

$(command): $(objects) $(static)
	$(CC) -pthread $(CFLAGS) $(LDFLAGS) -o $@ $^

check: all
	tests/run
	tests/shared
	tests/installed
	tests/command
	tests/python

# What is built is installed as it stands, so that this can be done by another user than who built it.
install: $(if $(wildcard $(command)),,all)
	for place in $(places); do $(INSTALL) -d "$(DESTDIR)$(PREFIX)/$$place" || exit 1; done
	$(INSTALL) -m 644 $(header) "$(DESTDIR)$(PREFIX)/include/"
	$(INSTALL) -m 644 $(static) "$(DESTDIR)$(PREFIX)/lib/"
	$(INSTALL) -m 755 $(shared) "$(DESTDIR)$(PREFIX)/lib/"
	ln -sf $(notdir $(shared)) "$(DESTDIR)$(PREFIX)/lib/libmungkelas.so.$(major)"
	ln -sf libmungkelas.so.$(major) "$(DESTDIR)$(PREFIX)/lib/libmungkelas.so"
	sed -e 's|@PREFIX@|$(PREFIX)|' -e 's|@VERSION@|$(version)|' mungkelas.pc.in >"$(DESTDIR)$(PREFIX)/lib/pkgconfig/mungkelas.pc"
	chmod 644 "$(DESTDIR)$(PREFIX)/lib/pkgconfig/mungkelas.pc"
	$(INSTALL) -m 755 $(command) "$(DESTDIR)$(PREFIX)/bin/"
	$(INSTALL) -m 644 cli/mungkelas.1 "$(DESTDIR)$(PREFIX)/share/man/man1/"
	$(INSTALL) -m 644 $(docs) "$(DESTDIR)$(PREFIX)/share/doc/mungkelas/"

uninstall:
	cd "$(DESTDIR)$(PREFIX)" && rm -f include/mungkelas.h lib/libmungkelas.a lib/libmungkelas.so lib/libmungkelas.so.$(major) \
	  lib/libmungkelas.so.$(version) lib/pkgconfig/mungkelas.pc bin/mungkelas share/man/man1/mungkelas.1 $(docs:%=share/doc/mungkelas/%)
	-rmdir "$(DESTDIR)$(PREFIX)/share/doc/mungkelas"

clean:
	rm -rf target/cli target/lib target/tests
