# make              proves and builds the programs into build/
# make demo         compiles and assembles the examples with them, runs their objects, compares bytes and output, and shows the rows of two
# make test         runs the gate
# make install      installs what `make` built, and its manual pages, below PREFIX (below DESTDIR, if it is given)
# make clean        removes build/; what proofs and tests have kept stands in crates/*/out and stays
#
# Without proving anything:
# make try          compiles one example and runs another
# make try SRC=my.c IN=numbers      compiles a program of your own, and runs it on the numbers of a file
# make unproved     makes the programs in build/unproved/, in some minutes

PROGRAMS = pcc pvm pview pstat pasm pcheck pexplain
PREFIX = /usr/local
INSTALL = install

# Words with which a program, once it is built, ends with status 0.
pcc_words = data/seven.c -o /dev/null
pvm_words = data/seven.tv
pview_words = data/seven.tv
pstat_words = data/sum.tv
pasm_words = data/seven.rows -o /dev/null
pcheck_words = data/dot.c data/dot.tv data/dot.cert
pexplain_words = data/dot.c

all: $(PROGRAMS:%=build/%)

build/%: FORCE
	@mkdir -p build
	@rm -f $@ crates/$*/out/$*
	@cd crates/$* && rt run -- $($*_words) </dev/null >../../build/$*.log 2>&1 || { cat ../../build/$*.log; echo "not built: $@"; exit 1; }
	@cp crates/$*/out/$* $@
	@echo "proved and built: $@"

demo: all
	examples/run

ifdef SRC
try:
	@tools/try $(SRC) $(IN)
else
try:
	@mkdir -p build
	@echo "compiling examples/numbers.c and running examples/sum.hex; nothing is proved here"
	@xxd -r -p examples/sum.hex build/sum.tv
	@$(MAKE) --no-print-directory -j2 try-pcc try-pvm
	@echo "as expected; nothing was proved"
endif

try-pcc:
	@cd crates/pcc && rt try --data numbers.c=../../examples/numbers.c -- numbers.c -o /dev/stdout >../../build/numbers.tv 2>../../build/try-pcc.log
	@tr -d ' \n' <examples/numbers.hex >build/numbers.wanted
	@xxd -p build/numbers.tv | tr -d '\n' | cmp - build/numbers.wanted
	@echo "pcc wrote the object of examples/numbers.c"

try-pvm:
	@cd crates/pvm && rt try --data sum.tv=../../build/sum.tv -- sum.tv <../../examples/sum.in >../../build/sum.out 2>../../build/try-pvm.log
	@cmp build/sum.out examples/sum.out
	@echo "pvm ran examples/sum.hex, which prints $$(cat build/sum.out)"

unproved:
	@tools/unproved

install:
	@for it in $(PROGRAMS:%=build/%); do [ -x $$it ] || { echo "not there: $$it; run make first"; exit 1; }; done
	$(INSTALL) -d $(DESTDIR)$(PREFIX)/bin $(DESTDIR)$(PREFIX)/share/man/man1
	$(INSTALL) $(PROGRAMS:%=build/%) $(DESTDIR)$(PREFIX)/bin
	$(INSTALL) -m 644 $(PROGRAMS:%=docs/man/%.1) $(DESTDIR)$(PREFIX)/share/man/man1

clean:
	rm -rf build

test:
	rt ci

FORCE:

.PHONY: all demo test try try-pcc try-pvm unproved install clean FORCE
