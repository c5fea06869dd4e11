# `make try` plays a script without a proof, `make play` through the proved player; `make serve` starts the server with a bench of
# simulated instruments; `make install` puts what was built under PREFIX, and `make uninstall` removes it; `make test` runs the gate;
# `make bench` measures; `make memory` refuses memory. All but install and uninstall want the kit's `rt` on PATH.

SCRIPT = examples/first-link.vxs
BENCH = examples/bench.txt
OPTIONS =

# where `make install` puts things; a PREFIX of one's own has an etc of its own, and DESTDIR stands in front of each
PREFIX = /usr/local
bindir = $(PREFIX)/bin
man1dir = $(PREFIX)/share/man/man1
unitdir = $(PREFIX)/lib/systemd/system
sysconfdir = $(if $(filter /usr /usr/local,$(PREFIX)),/etc,$(PREFIX)/etc)

# the folder in which each program was built
CRATES = crates

PLAYER = $(CRATES)/vxplay/out/vxplay
SERVER = $(CRATES)/vxgate/out/vxgate
CHECKER = $(CRATES)/vxcheck/out/vxcheck
CLIENT = $(CRATES)/vxcall/out/vxcall
MAPPER = $(CRATES)/vxmap/out/vxmap
BUSES = $(CRATES)/vxbuses/out/vxbuses
GUARD = $(CRATES)/vxguard/out/vxguard
MEASURE = crates/vx_measure/out/vx_measure

# what `make bench` measures beside this server, this gate and these buses, as 'NAME=PROGRAM .. --gate NAME=COMMAND --buses
# NAME=COMMAND', and beside this player, as 'NAME=PROGRAM ..', with '--check NAME=PROGRAM ..' behind them for checkers
OTHERS =
PLAYERS =

# what is installed: a program has a manual page of its name
PROGRAMS = $(PLAYER) $(CHECKER) $(SERVER) $(CLIENT) $(MAPPER) $(BUSES) $(GUARD)
NAMES = $(notdir $(PROGRAMS))
UNITS = vxgate.service vxmap@.service
INSTALLED_BENCH = "$(DESTDIR)$(sysconfdir)/duorfke/bench.txt"

.PHONY: try play serve install uninstall player checker server client mapper buses guard measure test bench tables memory

# the same script without a proof
try:
	@echo "nothing is proved here: make play proves what it plays" >&2
	@cd crates/vxplay && rt try -- run < ../../$(SCRIPT)

# SCRIPT=examples/refusals.vxs plays another script.
play: player
	$(PLAYER) run < $(SCRIPT)

# BENCH=my-bench.txt has other instruments, and OPTIONS='--core 9020 --abort 9021' other words. It ends with Ctrl-C.
serve: server
	$(SERVER) $(OPTIONS) < $(BENCH)

# Programs, manual pages, units for systemd, and a bench where none is. It builds nothing.
install:
	@for program in $(PROGRAMS); do test -x "$$program" || { \
	    echo "$$program isn't built: run make player checker server client mapper buses guard, or make test, first" >&2; exit 1; }; done
	install -d "$(DESTDIR)$(bindir)" "$(DESTDIR)$(man1dir)" "$(DESTDIR)$(unitdir)" "$(DESTDIR)$(sysconfdir)/duorfke"
	install -m 755 $(PROGRAMS) "$(DESTDIR)$(bindir)"
	install -m 644 $(NAMES:%=contrib/man/%.1) "$(DESTDIR)$(man1dir)"
	install -m 644 $(UNITS:%=contrib/%) "$(DESTDIR)$(unitdir)"
	sed -i 's|/usr/local/bin/|$(bindir)/|; s|/etc/duorfke/|$(sysconfdir)/duorfke/|' $(UNITS:%="$(DESTDIR)$(unitdir)/%")
	test -e $(INSTALLED_BENCH) || install -m 644 examples/bench.txt $(INSTALLED_BENCH)

# It wants the words that the install had. A bench that isn't the example any more is left.
uninstall:
	rm -f $(NAMES:%="$(DESTDIR)$(bindir)/%") $(NAMES:%="$(DESTDIR)$(man1dir)/%.1") $(UNITS:%="$(DESTDIR)$(unitdir)/%")
	@if test ! -e $(INSTALLED_BENCH); then :; \
	elif test "$$(sed '' $(INSTALLED_BENCH))" = "$$(sed '' examples/bench.txt)"; then rm -f $(INSTALLED_BENCH); \
	else echo $(INSTALLED_BENCH) "was changed, so it is left" >&2; fi
	@rm -d "$(DESTDIR)$(sysconfdir)/duorfke" 2> /dev/null || :

# Each of these proves and builds a program and all below it; where nothing changed, it only runs the program once. The lines
# of rt itself go to standard error.
player:
	cd crates/vxplay && rt run -- run < /dev/null > /dev/null

checker:
	cd crates/vxcheck && rt run < stdin > /dev/null

server:
	cd crates/vxgate && rt run -- --version < /dev/null > /dev/null

# without words the client, the port mapper, the server of four buses and the guard end with status 1, so that one was made shows that it was proved
client:
	cd crates/vxcall && rm -f out/vxcall && { rt run < /dev/null > /dev/null || test -x out/vxcall; }

mapper:
	cd crates/vxmap && rm -f out/vxmap && { rt run < /dev/null > /dev/null || test -x out/vxmap; }

buses:
	cd crates/vxbuses && rm -f out/vxbuses && { rt run < /dev/null > /dev/null || test -x out/vxbuses; }

guard:
	cd crates/vxguard && rm -f out/vxguard && { rt run < /dev/null > /dev/null || test -x out/vxguard; }

# a program that takes turns at a gate on some threads, serves one link or two at once by four buses, has a client and a gateway in it,
# or plays the rows of the player and of the checker
measure:
	cd crates/vx_measure && rt run -- gate 1 1 < /dev/null > /dev/null

# It takes some ten minutes, and wants a C compiler as cc and a machine that does nothing else. bench/bench.py and bench/tables.py
# say what they print, and with which words the first takes less.
bench: server measure tables
	python3 bench/bench.py --long $(OTHERS) this=$(SERVER) --gate 'this=$(MEASURE) gate' --buses 'this=$(MEASURE) buses'

# steps with full tables, long scripts, a long run from a number, and a long trace
tables: player checker
	python3 bench/tables.py this=$(PLAYER) $(PLAYERS) --check this=$(CHECKER)

# It runs each of seven programs once for each allocation that it makes, in some ten seconds, and wants a C compiler as cc.
memory: player server client measure mapper buses guard
	python3 .ci/memory.py $(PLAYER) $(SERVER) $(CLIENT) $(MEASURE) $(MAPPER) $(BUSES) $(GUARD)

test:
	bash .ci/run
