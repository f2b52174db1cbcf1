# make                the archive target/libsrec.a and the program target/srec
# make install        header, archive, srec.pc, program and manual pages under $(DESTDIR)$(PREFIX)
# make uninstall      removes what install put there
# make clean          removes what make made, but not the proofs
#
# An archive of a proved crate is made by `rt lib`, from its sources, where it is missing or older than they are.

PREFIX ?= /usr/local
BINDIR ?= $(PREFIX)/bin
LIBDIR ?= $(PREFIX)/lib
INCLUDEDIR ?= $(PREFIX)/include
MANDIR ?= $(PREFIX)/share/man
PKGCONFIGDIR ?= $(LIBDIR)/pkgconfig

CC ?= cc
AR ?= ar
INSTALL ?= install
CFLAGS ?= -O2 -g
WARNINGS ?= -Wall -Wextra -pedantic
RT ?= rt

# The crates with the functions of include/srec.h: static libraries, as crates.txt says.
CRATES = capi whole_c survey_c merge_c chips_c symbol_c parts_c

archive_of = crates/$(1)/out/lib$(1).a
ARCHIVES = $(foreach crate,$(CRATES),$(call archive_of,$(crate)))
SOURCES = $(wildcard tools/*.c)
OBJECTS = $(SOURCES:tools/%.c=target/tools/%.o)
VERSION = $(shell sed -n 's/^#define SREC_VERSION "\(.*\)"/\1/p' include/srec.h)
FLAGS = -std=c99 -D_POSIX_C_SOURCE=200809L -D_FILE_OFFSET_BITS=64 -Iinclude $(WARNINGS) $(CPPFLAGS) $(CFLAGS)

# A crate's proofs take all processors, so one thing is made at a time.
.NOTPARALLEL:
.DELETE_ON_ERROR:
.PHONY: all install uninstall clean

all: target/libsrec.a target/srec

# $(call stands_on,CRATE): the crate and all that it stands on, by crates.txt.
stands_on = $(shell awk -F '[: ]+' -v crate=$(1) ' \
    { for (i = 2; i <= NF; i++) under[$$1] = under[$$1] " " $$i } \
    END { todo = crate; while (todo != "") { split(todo, now, " "); todo = ""; \
        for (i in now) if (!(now[i] in done)) { done[now[i]] = 1; todo = todo under[now[i]]; print now[i] } } }' crates.txt)

# $(call sources_of,CRATES): their files, but not the edits that must fail, nor what rt makes. The kit has crates of its own, which
# are not here, and neither is the word staticlib.
here = $(wildcard $(1:%=crates/%))
sources_of = $(if $(here),$(shell find $(here) -type f ! -path '*/must-fail/*' ! -path '*/out/*'))

# `rt lib` proves what the crate stands on, too, where that is not proved yet.
define crate_rule
$(call archive_of,$(1)): $$(call sources_of,$$(call stands_on,$(1)))
	cd crates/$(1) && $(RT) lib
	touch $$@
endef
$(foreach crate,$(CRATES),$(eval $(call crate_rule,$(crate))))

# Each archive in a folder of its own: two of them may have members of one name.
target/libsrec.a: $(ARCHIVES)
	rm -rf target/members $@
	for crate in $(CRATES); do \
	    mkdir -p target/members/$$crate && \
	    (cd target/members/$$crate && $(AR) x ../../../$(call archive_of,$$crate)) || exit 1; \
	done
	$(AR) rcs $@ target/members/*/*.o

target/tools/%.o: tools/%.c include/srec.h $(wildcard tools/*.h)
	@mkdir -p $(@D)
	$(CC) $(FLAGS) -c $< -o $@

target/srec: $(OBJECTS) target/libsrec.a
	$(CC) $(CFLAGS) $(LDFLAGS) $(OBJECTS) target/libsrec.a -o $@

target/srec.pc: tools/srec.pc.in include/srec.h Makefile
	@mkdir -p $(@D)
	sed -e 's|@PREFIX@|$(PREFIX)|' -e 's|@LIBDIR@|$(LIBDIR)|' -e 's|@INCLUDEDIR@|$(INCLUDEDIR)|' \
	    -e 's|@VERSION@|$(VERSION)|' tools/srec.pc.in > $@

# The folders may be others than those of the last call.
.PHONY: target/srec.pc

install: all target/srec.pc
	$(INSTALL) -d $(DESTDIR)$(BINDIR) $(DESTDIR)$(LIBDIR) $(DESTDIR)$(INCLUDEDIR) $(DESTDIR)$(MANDIR)/man1 \
	    $(DESTDIR)$(MANDIR)/man3 \
	    $(DESTDIR)$(PKGCONFIGDIR)
	$(INSTALL) -m 755 target/srec $(DESTDIR)$(BINDIR)/srec
	$(INSTALL) -m 644 target/libsrec.a $(DESTDIR)$(LIBDIR)/libsrec.a
	$(INSTALL) -m 644 include/srec.h $(DESTDIR)$(INCLUDEDIR)/srec.h
	$(INSTALL) -m 644 target/srec.pc $(DESTDIR)$(PKGCONFIGDIR)/srec.pc
	$(INSTALL) -m 644 tools/srec.1 $(DESTDIR)$(MANDIR)/man1/srec.1
	$(INSTALL) -m 644 tools/srec.3 $(DESTDIR)$(MANDIR)/man3/srec.3

uninstall:
	rm -f $(DESTDIR)$(BINDIR)/srec $(DESTDIR)$(LIBDIR)/libsrec.a $(DESTDIR)$(INCLUDEDIR)/srec.h \
	    $(DESTDIR)$(PKGCONFIGDIR)/srec.pc $(DESTDIR)$(MANDIR)/man1/srec.1 $(DESTDIR)$(MANDIR)/man3/srec.3

# The crates' own archives stay: they take minutes.
clean:
	rm -rf target/tools target/members
	rm -f target/libsrec.a target/srec target/srec.pc
