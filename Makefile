# For people; `make help` says what there is. The gate is .ci/run.

CARD ?= examples/case-a.card
PREFIX ?= /usr/local
INSTALLED = $(DESTDIR)$(PREFIX)
LIBRARY = target/staticlib/libicecoppice.a
PRINTER = target/bin/printer

.PHONY: help plan test printer library install
.NOTPARALLEL:

help:
	@echo "make plan [CARD=FILE.card]   print the plan of a card, $(CARD) if none is named"
	@echo "make test                    run the gate"
	@echo "make library                 build the C library, $(LIBRARY)"
	@echo "make printer                 build the plan printer, $(PRINTER)"
	@echo "make install [PREFIX=DIR]    put it, its header and its pkg-config file into DIR, $(PREFIX) if none is named"
	@echo
	@echo "Each proves and builds what is missing first; README.md says how long that takes."

plan:
	@test -f "$(CARD)" || { echo "make plan: no file $(CARD)" >&2; exit 2; }
	@$(MAKE) --no-print-directory printer
	@echo "$(CARD):" >&2
	@$(PRINTER) < "$(CARD)"

test:
	@.ci/run

# Where nothing has changed the prover says so in a second.
printer:
	@tools/prove.sh printer >&2
	@install -D crates/printer/out/printer $(PRINTER)

library: $(LIBRARY)

# Here it loads what was proved once more, so that it runs only where a source is newer.
$(LIBRARY): crates.txt $(shell find crates -name out -prune -o \( -name '*.rt' -o -name '*.antt' \) -print)
	@tools/prove.sh icecoppice_c >&2
	@install -D -m 644 crates/icecoppice_c/out/libicecoppice_c.a $@

install:
	@install -d "$(INSTALLED)/include" "$(INSTALLED)/lib/pkgconfig"
	@$(MAKE) --no-print-directory library
	install -m 644 include/icecoppice.h "$(INSTALLED)/include"
	install -m 644 $(LIBRARY) "$(INSTALLED)/lib"
	install -m 644 include/icecoppice.pc "$(INSTALLED)/lib/pkgconfig"
