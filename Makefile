# make            the proved archive, the command line program, and build/venues, an example of a host with eight feeds
# make run        finds the seats of a sample plan
# make test       the gate and the host tests; the last line is the gate's, 'N passed, M failed'
# make host-test  the host tests alone: C programs against the archive, the command line program and the example
# make install    archive, header, pkg-config file, program and man pages, under $(DESTDIR)$(PREFIX); make uninstall
# make bench, make clean

PREFIX = /usr/local
CC = cc
CXX = c++
CFLAGS = -O2 -g
WARNINGS = -Wall -Wextra -Wpedantic -Wconversion -Wshadow
COMPILE = $(CC) -std=c99 $(WARNINGS) $(CFLAGS) -Iinclude

ARCHIVE = build/libjazhuppe.a
LISTER = build/lister
PROGRAM = build/jazhuppe
VENUES = build/venues
HEADER = include/jazhuppe.h
TESTS = $(addprefix build/test/, marked refusals scan_values limits differential sqlite turns)
VERSION = $(shell sed -n 's/^\#define JAZHUPPE_VERSION "\(.*\)"/\1/p' $(HEADER))
INTO = $(DESTDIR)$(PREFIX)

all: $(ARCHIVE) $(PROGRAM) $(VENUES)

SOURCES = crates.txt $(shell find crates \( -name must-fail -o -name out \) -prune -o -type f -print)

# It needs the Rattle kit's rt, which proves what has changed and compiles it only then.
$(ARCHIVE): $(SOURCES)
	@mkdir -p $(@D)
	cd crates/jazhuppe_c && rt lib
	cp crates/jazhuppe_c/out/libjazhuppe_c.a $@

# Document 01's program, in Rattle: the host tests run it. It is run once to build it.
$(LISTER): $(SOURCES)
	@mkdir -p $(@D)
	cd crates/lister && rt run < stdin > /dev/null
	cp crates/lister/out/lister $@

$(PROGRAM) $(VENUES): build/%: host/%.c $(HEADER) $(ARCHIVE)
	@mkdir -p $(@D)
	$(COMPILE) $< $(ARCHIVE) -o $@

run: $(PROGRAM)
	@PROGRAM=$(PROGRAM) sh host/sample.sh

build/test/%.o: host/test/%.c $(wildcard host/test/*.h) $(HEADER)
	@mkdir -p $(@D)
	$(COMPILE) -c $< -o $@

$(TESTS): %: %.o build/test/testing.o build/test/second.o $(ARCHIVE)
	$(CC) $^ -o $@

# Those that draw rules and plans.
build/test/differential build/test/turns: build/test/drawn.o

host-test: $(PROGRAM) $(VENUES) $(TESTS) $(LISTER)
	CC="$(CC)" CXX="$(CXX)" PROGRAM=$(PROGRAM) VENUES=$(VENUES) sh host/test/all.sh

test:
	bash .ci/run

install: all
	install -d $(INTO)/bin $(INTO)/include $(INTO)/lib/pkgconfig $(INTO)/share/man/man1 $(INTO)/share/man/man3
	install -m 755 $(PROGRAM) $(INTO)/bin/jazhuppe
	install -m 644 $(HEADER) $(INTO)/include/jazhuppe.h
	install -m 644 $(ARCHIVE) $(INTO)/lib/libjazhuppe.a
	sed 's|@PREFIX@|$(PREFIX)|; s|@VERSION@|$(VERSION)|' host/jazhuppe.pc.in > $(INTO)/lib/pkgconfig/jazhuppe.pc
	install -m 644 host/jazhuppe.1 $(INTO)/share/man/man1/jazhuppe.1
	install -m 644 host/jazhuppe_turn.3 host/jazhuppe_offer.3 $(INTO)/share/man/man3

uninstall:
	rm -f $(INTO)/bin/jazhuppe $(INTO)/include/jazhuppe.h $(INTO)/lib/libjazhuppe.a $(INTO)/lib/pkgconfig/jazhuppe.pc \
	  $(INTO)/share/man/man1/jazhuppe.1 $(INTO)/share/man/man3/jazhuppe_turn.3 $(INTO)/share/man/man3/jazhuppe_offer.3

bench: $(ARCHIVE) $(PROGRAM)
	bench/run

clean:
	rm -rf build crates/*/out

.PHONY: all run host-test test install uninstall bench clean
