# "make -s plan <TICKET" plans a ticket, "make -s page <TICKET" prints its page, "make -s passes <NOTE" the references of a note, and
# "make -s slots DISK=0 ROUNDS=6 <TICKET" how many slots disk 0 needs for 6 rounds. "make" builds the archive, the programs, the tools and the
# examples; "make install" puts header, archive, pkg-config file and programs below PREFIX. Archive and programs are proved before they are written:
# that needs rt on the path and minutes.

VERSION = 0.1.0
PREFIX = /usr/local
DESTDIR =
RT = rt
INSTALL = install

ARCHIVE = target/staticlib/libplanner.a
PROGRAMS = target/bin/plan target/bin/page target/bin/passes target/bin/slots
PC = target/c/planner.pc
SOURCES := crates.txt $(shell find crates -path '*/out' -prune -o \( -name '*.rt' -o -name '*.antt' \) -print)

TO = $(DESTDIR)$(PREFIX)
TRIAL = target/c/install

all: $(ARCHIVE) $(PROGRAMS) tools example

# What rt prints while it proves goes to standard error.
plan page passes: %: target/bin/%
	@$<

slots: target/bin/slots
	@$< $(DISK) $(ROUNDS)

.PHONY: all plan page passes slots tools example install uninstall check-install clean

target/staticlib/libplanner.a: $(SOURCES)
	cd crates/planner_c && $(RT) lib >&2 </dev/null
	@mkdir -p $(@D) && cp crates/planner_c/out/libplanner_c.a $@

# rt builds a program to run it: here on no input, and what it prints is dropped.
$(PROGRAMS) target/bin/cases: target/bin/%: $(SOURCES)
	cd crates/$* && $(RT) run >&2 </dev/null
	@mkdir -p $(@D) && cp crates/$*/out/$* $@

tools:
	$(MAKE) -C tools all

example: $(ARCHIVE)
	$(MAKE) -C examples all LIBRARY=$(abspath $(ARCHIVE))

install: $(ARCHIVE) $(PROGRAMS)
	mkdir -p $(dir $(PC)) $(TO)/include $(TO)/lib/pkgconfig $(TO)/bin
	sed 's|@PREFIX@|$(PREFIX)|;s|@VERSION@|$(VERSION)|' planner.pc.in >$(PC)
	$(INSTALL) -m 644 include/planner.h $(TO)/include
	$(INSTALL) -m 644 $(ARCHIVE) $(TO)/lib
	$(INSTALL) -m 644 $(PC) $(TO)/lib/pkgconfig
	$(INSTALL) -m 755 $(PROGRAMS) $(TO)/bin

uninstall:
	rm -f $(TO)/include/planner.h $(TO)/lib/libplanner.a $(TO)/lib/pkgconfig/planner.pc $(addprefix $(TO)/bin/,$(notdir $(PROGRAMS)))

# Installs into a folder of its own, builds the example from there as any C program would, and runs it and the programs: the plan of case F, the page
# of case G, the references of document 02's note, the slots that disk 0 of case G needs for 5 rounds.
check-install: tools
	rm -rf $(TRIAL)
	$(MAKE) install DESTDIR=$(abspath $(TRIAL))
	PKG_CONFIG_SYSROOT_DIR=$(abspath $(TRIAL)) PKG_CONFIG_PATH=$(abspath $(TRIAL))$(PREFIX)/lib/pkgconfig sh -ec \
	    'gcc -std=c11 -Wall -Wextra -Werror examples/plan_case_f.c $$(pkg-config --cflags --libs planner) -o $(TRIAL)/example'
	$(TRIAL)/example >$(TRIAL)/example.out
	cmp $(TRIAL)/example.out examples/expected.txt
	for run in plan/F page/G; do \
	    target/c/tools/ticket tools/cases/$${run#*/}.txt | $(TRIAL)$(PREFIX)/bin/$${run%/*} | cmp - crates/$${run%/*}/stdout || exit 1; done
	$(TRIAL)$(PREFIX)/bin/passes <crates/passes/stdin | cmp - crates/passes/stdout
	target/c/tools/ticket tools/cases/G.txt | $(TRIAL)$(PREFIX)/bin/slots 0 5 | cmp - crates/slots/stdout
	$(MAKE) uninstall DESTDIR=$(abspath $(TRIAL))
	test -z "$$(find $(TRIAL)$(PREFIX) -type f)"
	@echo "installed, used through pkg-config, removed"

clean:
	rm -rf target/c
