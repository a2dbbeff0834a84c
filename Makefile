# make            builds the engine's archive and the program over it. The first
#                 time the engine is proved, which takes minutes.
# make install    puts header, archive, pkg-config file and program in place,
#                 under PREFIX
# make uninstall  takes them away again
#
# As usual PREFIX may be set, and BINDIR, INCLUDEDIR, LIBDIR, PKGCONFIGDIR; DESTDIR
# stands before each path, for packages; CC and CFLAGS are the program's. Another
# archive than the one that is built here is given as ARCHIVE.

PREFIX = /usr/local
BINDIR = $(PREFIX)/bin
INCLUDEDIR = $(PREFIX)/include
LIBDIR = $(PREFIX)/lib
PKGCONFIGDIR = $(LIBDIR)/pkgconfig
DESTDIR =

HEADER = include/wunzelihle.h
PROGRAM = target/host/wunzelihle
ARCHIVE = $(BUILT)

# rt writes archives for x86-64; elsewhere the engine is compiled again.
RT = rt
ifeq ($(shell uname -m),x86_64)
BUILT = target/staticlib/libwunzelihle.a
BUILD = RT=$(RT) tools/archive wunzelihle
else
BUILT = target/native/libwunzelihle.a
BUILD = tools/native-archive wunzelihle target/native
endif

# A pkg-config file with half a path would be of no use.
ifeq ($(filter /%,$(BINDIR)),)
$(error PREFIX is '$(PREFIX)': give a whole path, from / on)
endif

VERSION = $(shell sed -n 's/^\#define WZ_VERSION_TEXT "\(.*\)"$$/\1/p' $(HEADER))

all: program
	@echo "$(PROGRAM) is built; 'make install' puts it, header and archive under $(PREFIX)"

$(BUILT): crates.txt $(shell find crates -path '*/src/*' -o -path '*/specs/*' -o -path '*/proofs/*')
	@command -v $(RT) >/dev/null || \
		{ echo "there is no '$(RT)' here: install the Rattle toolchain, and put it in your PATH" >&2; exit 1; }
	$(BUILD)
	@touch $@

program: $(ARCHIVE)
	@$(MAKE) --no-print-directory -C host ARCHIVE='$(abspath $(ARCHIVE))' PROGRAM='$(abspath $(PROGRAM))'

# A path of the pkg-config file, by its prefix where it can be.
told = $(patsubst $(PREFIX)/%,$${prefix}/%,$(1))

install: program
	install -d '$(DESTDIR)$(BINDIR)' '$(DESTDIR)$(INCLUDEDIR)' '$(DESTDIR)$(LIBDIR)' '$(DESTDIR)$(PKGCONFIGDIR)'
	install -m 755 '$(PROGRAM)' '$(DESTDIR)$(BINDIR)/wunzelihle'
	install -m 644 $(HEADER) '$(DESTDIR)$(INCLUDEDIR)/wunzelihle.h'
	install -m 644 '$(ARCHIVE)' '$(DESTDIR)$(LIBDIR)/libwunzelihle.a'
	sed -e 's|@PREFIX@|$(PREFIX)|' -e 's|@INCLUDEDIR@|$(call told,$(INCLUDEDIR))|' \
		-e 's|@LIBDIR@|$(call told,$(LIBDIR))|' -e 's|@VERSION@|$(VERSION)|' \
		wunzelihle.pc.in >'$(DESTDIR)$(PKGCONFIGDIR)/wunzelihle.pc'
	chmod 644 '$(DESTDIR)$(PKGCONFIGDIR)/wunzelihle.pc'

uninstall:
	rm -f '$(DESTDIR)$(BINDIR)/wunzelihle' '$(DESTDIR)$(INCLUDEDIR)/wunzelihle.h' \
		'$(DESTDIR)$(LIBDIR)/libwunzelihle.a' '$(DESTDIR)$(PKGCONFIGDIR)/wunzelihle.pc'

.PHONY: all program install uninstall
