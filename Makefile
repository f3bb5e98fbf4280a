# The library for C programs and the command `oab`, below target/oab; `make check` runs the tests, `make install` puts
# both in place (PREFIX, DESTDIR). The library is proved before it is built.
# The kit builds for x86-64: elsewhere the cross compiler x86_64-linux-gnu-gcc links the command statically, and bin/oab
# runs it by an emulator. LIBRARY='a.o b.o c.o' takes objects that are compiled for this machine instead.
# SANITIZE=1 builds below target/sanitized, with the C files watched for wrong accesses and undefined steps.

# The crates of the calls' exports. Each gives one object, which shows its own calls and nothing else.
FACES = face_reading_c face_reason_c face_index_c face_sheet_c face_correcting_c face_writing_c

ifneq ($(LIBRARY)$(filter x86_64,$(shell uname -m)),)
CC ?= cc
STATIC =
else
CC = x86_64-linux-gnu-gcc
AR = x86_64-linux-gnu-ar
STATIC = -static
endif

CFLAGS ?= -O2 -g
WARN = -std=c11 -Wall -Wextra -Wpedantic -Wshadow -Wconversion
DEFINES = -D_GNU_SOURCE -Iinclude -Ioab
ifdef SANITIZE
OUT = target/sanitized
WATCH = -fsanitize=address,undefined -fno-sanitize-recover=all
else
OUT = target/oab
WATCH =
endif

PREFIX ?= /usr/local
DESTDIR ?=
VERSION = $(shell awk '$$2 == "WT_VERSION" { n = $$3 + 0; printf "%d.%d.%d", n / 10000, n / 100 % 100, n % 100 }' \
	include/windtrellis.h)

PARTS = $(patsubst oab/%.c,$(OUT)/%.o,$(wildcard oab/*.c))
LIB = target/oab
ARCHIVE = $(LIB)/libwindtrellis.a

all: $(OUT)/oab

tools:
	@command -v $(CC) >/dev/null || { echo "make: the C compiler $(CC) is missing" >&2; exit 1; }
	@command -v $(AR) >/dev/null || { echo "make: the archiver $(AR) is missing (package binutils)" >&2; exit 1; }

# What the library was built from, and the command: other objects, another compiler or other flags build it anew.
$(LIB)/from: tools
	@mkdir -p $(LIB)
	@echo '$(AR) $(LIBRARY)' | cmp -s - $@ || echo '$(AR) $(LIBRARY)' >$@

$(OUT)/how: tools
	@mkdir -p $(OUT)
	@echo '$(CC) $(CFLAGS) $(WATCH)' | cmp -s - $@ || echo '$(CC) $(CFLAGS) $(WATCH)' >$@

ifneq ($(LIBRARY),)
$(ARCHIVE): $(LIBRARY) $(LIB)/from
	rm -f $@
	$(AR) rcs $@ $(LIBRARY)
else
# Each object is built over what earlier checks kept, and what none of them proved is proved first.
$(ARCHIVE): $(shell find crates -name out -prune -o \( -name '*.rt' -o -name '*.antt' \) -print) crates.txt $(LIB)/from
	@command -v rt >/dev/null || { echo "make: rt is missing: the Rattle kit proves the library" >&2; exit 1; }
	@echo "make: the library is proved first: some minutes to half an hour where nothing of it is proved yet" >&2
	(for f in $(FACES); do (cd crates/$$f && rt lib) || exit 1; done) > $(LIB)/lib.log 2>&1 || \
		{ tail -n 20 $(LIB)/lib.log; exit 1; }
	cd $(LIB) && for f in $(FACES); do $(AR) x ../../crates/$$f/out/lib$$f.a || exit 1; done
	rm -f $@
	$(AR) rcs $@ $(FACES:%=$(LIB)/%.o)
endif

$(OUT)/%.o: oab/%.c $(wildcard oab/*.h) include/windtrellis.h $(OUT)/how
	$(CC) $(WARN) $(DEFINES) $(CFLAGS) $(WATCH) -c -o $@ $<

$(OUT)/oab: $(ARCHIVE) $(PARTS)
	$(CC) $(CFLAGS) $(WATCH) $(STATIC) -o $@ $(PARTS) $(ARCHIVE)

# For programs that load a library, as the tests do.
$(LIB)/libwindtrellis.so: $(ARCHIVE)
	$(CC) -shared -o $@ -Wl,--whole-archive $< -Wl,--no-whole-archive

shared: $(LIB)/libwindtrellis.so

faces:
	@echo $(FACES)

check:
	LIBRARY='$(LIBRARY)' tests/run

install: all
	install -d $(DESTDIR)$(PREFIX)/bin $(DESTDIR)$(PREFIX)/include $(DESTDIR)$(PREFIX)/lib/pkgconfig \
		$(DESTDIR)$(PREFIX)/share/man/man1 $(DESTDIR)$(PREFIX)/share/bash-completion/completions
	install -m 755 $(OUT)/oab $(DESTDIR)$(PREFIX)/bin/oab
	install -m 644 include/windtrellis.h $(DESTDIR)$(PREFIX)/include/windtrellis.h
	install -m 644 $(ARCHIVE) $(DESTDIR)$(PREFIX)/lib/libwindtrellis.a
	sed -e 's|@PREFIX@|$(PREFIX)|' -e 's|@VERSION@|$(VERSION)|' oab/windtrellis.pc.in \
		> $(DESTDIR)$(PREFIX)/lib/pkgconfig/windtrellis.pc
	chmod 644 $(DESTDIR)$(PREFIX)/lib/pkgconfig/windtrellis.pc
	install -m 644 oab/oab.1 $(DESTDIR)$(PREFIX)/share/man/man1/oab.1
	install -m 644 oab/completion.bash $(DESTDIR)$(PREFIX)/share/bash-completion/completions/oab
	@[ -z "$(STATIC)" ] || echo "make: the command and the library that were installed are for x86-64" >&2

clean:
	rm -rf target/oab target/sanitized

.PHONY: all tools shared faces check install clean
