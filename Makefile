# The engine's archive and shared object, and their installation.
#
#   make                         proves the engine, and writes both to target/staticlib
#   make install PREFIX=FOLDER   installs what is there, the header and a file for
#                                pkg-config
#   make uninstall PREFIX=FOLDER
#
# DESTDIR stands before every folder that is installed to.

PREFIX ?= /usr/local
CC ?= cc
built = target/staticlib

part = $(shell sed -n 's/^.define JISAMPODE_VERSION_$(1) //p' include/jisampode.h)
major := $(call part,MAJOR)
version := $(major).$(call part,MINOR).$(call part,PATCH)

archive = $(built)/libjisampode.a
shared = $(built)/libjisampode.so.$(major)
includedir = $(DESTDIR)$(PREFIX)/include
libdir = $(DESTDIR)$(PREFIX)/lib

.PHONY: all proved install uninstall
all: proved
	$(MAKE) --no-print-directory $(shared)

proved:
	tools/archive

$(archive):
	tools/archive

$(shared): $(archive)
	$(CC) -shared -o $@ -Wl,-soname,$(notdir $@) -Wl,--no-undefined \
	    -Wl,--whole-archive $< -Wl,--no-whole-archive

install: $(archive) $(shared)
	install -d $(includedir) $(libdir)/pkgconfig
	install -m 644 include/jisampode.h $(includedir)
	install -m 644 $(archive) $(libdir)
	install -m 755 $(shared) $(libdir)
	ln -sf $(notdir $(shared)) $(libdir)/libjisampode.so
	printf '%s\n' 'prefix=$(PREFIX)' \
	    'Name: jisampode' \
	    'Description: The field engine of a print-preparation station' \
	    'Version: $(version)' \
	    'Cflags: -I$${prefix}/include' \
	    'Libs: -L$${prefix}/lib -ljisampode' > $(libdir)/pkgconfig/jisampode.pc

uninstall:
	rm -f $(includedir)/jisampode.h $(libdir)/libjisampode.a $(libdir)/libjisampode.so \
	    $(libdir)/$(notdir $(shared)) $(libdir)/pkgconfig/jisampode.pc
