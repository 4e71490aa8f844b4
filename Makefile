# make                      proves and builds the program, where that isn't done, by a process for each processor, or JOBS=1
#                           by one; KEEP=no keeps nothing of what only makes the next proof shorter
# make library              proves and builds the C library, where that isn't done; TARGET=aarch64-unknown-linux-gnu does
#                           so for that processor, in out/TARGET
# make portable             writes the C library as one file for any 64-bit compiler, out/portable/tilvenka_pmp.c
# make install PREFIX=..    puts what a release has below PREFIX, as release/files lists it; install-program and
#                           install-library put a part. Without rt it is what is prebuilt
# make uninstall PREFIX=..  takes it away
# make dist                 writes a release of what is built to dist/, with the page and the one file where they are made;
#                           TARGET= as above, of the library alone
# make dist-test            makes one, and wants each tool that its check asks for
# make page                 builds the page for a browser, web/out/pmp.html, and its module
# make page-test            compares in headless Chromium what it answers and shows with what the program answers
# make prebuilt             puts what make, make page and make portable built into prebuilt/
# make costs                writes release/costs as the last make that proved all from nothing took it
# make docs                 writes what the help and the man page have of docs/FORMATS.md, and where a limit or a refusal is
#                           told
# make soak SECONDS=..      lets a publisher and eight checkers run so long, and compares each answer with a replay
# make fuzz SECONDS=..      has libFuzzer try the C library so long
# make conformance          tries QEMU's unit, or that of HART="simulator ELF", by cases of each rule
# make reports              runs the cases of conformance/reports on QEMU 7.2, 10 and 11, and compares with their pages
# make mutants              turns each rule of plain harts in each way, and has the cases of make conformance find it
# make rv32                 boots an RV32 hart of QEMU, and compares what it refuses with what pmp refuses
# make captures             boots OpenSBI 1.1, 1.6 and 1.9 on QEMU 7.2, 10 and 11, and compares likewise
# make qemu                 builds QEMU 10.0 as it is and over the library, boots OpenSBI, U-Boot and Linux on both, and
#                           compares; VERSION=10.2 has the other one
# make test                 proves and tests everything, has the prover refuse the wrong bodies, then tries the program, the
#                           libraries, the launcher and the documents; its last line is the sum of all
PREFIX ?= /usr/local
SECONDS ?= 600
HART ?= qemu-system-riscv64 -M virt -cpu rv64,x-epmp=true -m 16M -display none -monitor none -serial stdio -bios ELF
PROGRAM = crates/pmp_tool/out/pmp_tool
STRESS = crates/pmp_stress/out/pmp_stress
LIBRARY = crates/pmp_c/out/libpmp_c.a
export PREFIX DESTDIR

# How many checks run side by side: one a processor, as far as memory goes, since each may take what the dearest crate
# does. Given so, rt ci has one process for each, which is less work than several for one.
LANES = $(shell awk -v most="$$(nproc)" 'NR == FNR { if (/^pmp_/ && $$4 + 0 > needs) needs = $$4 + 0; next } \
    /^MemAvailable/ { n = int($$2 / 1024 / needs); print n < 1 ? 1 : n < most ? n : most }' release/costs /proc/meminfo)
# How many where something else runs beside them.
FEWER = $(shell n=$(LANES); echo $$((n > 1 ? n - 1 : 1)))

.NOTPARALLEL:
.PHONY: build library portable page page-test prebuilt costs docs test fuzz conformance reports mutants rv32 captures qemu \
    install install-program install-library uninstall dist dist-test soak stress bench bench-decide bench-emulator bench-threads bench-limits bench-audit bench-page bench-qemu

build:
	@release/build program

library:
	@$(if $(filter-out x86_64-unknown-linux-gnu,$(TARGET)),release/cross $(TARGET),release/build library)

portable:
	@portable/make --can 2>/dev/null || integrations/debian/fetch trixie wabt
	@portable/make

page:
	@web/module
	@sources=$$(release/build --sources page) && web/build && release/build --note page web/build "$$sources"

page-test:
	@command -v chromium >/dev/null || { echo "there is no chromium; Debian's package is chromium" >&2; exit 2; }
	@$(MAKE) build page
	checks/page $(PROGRAM)

prebuilt: build page portable
	@release/prebuilt

costs:
	@release/prove --costs

docs:
	@release/documents

# rt ci proves and builds all from nothing. What comes after it goes over the libraries that it leaves, so no others may
# stand in their places, and the program that it leaves is noted as of the sources from before.
# checks/all runs the parts and adds up what they tell. They say make, since by $(MAKE) make -n would run them too. Wrong
# bodies begin over the work that rt keeps of each crate, once no other part proves in the same folders.
test:
	@rm -rf crates/*/out/rlib out/rooms && mkdir -p out && release/build --sources program >out/proving
	@checks/all 'RT_JOBS=$(LANES) rt ci' \
	    '$(PROVED) && if command -v $(CC); then RT=$(CURDIR)/checks/over-proved make library; fi && checks/library $(LIBRARY)' \
	    'RT=$(CURDIR)/checks/over-proved checks/cross' \
	    'RT=$(CURDIR)/checks/over-proved checks/portable' \
	    'RT=$(CURDIR)/checks/over-proved make page && checks/page $(PROGRAM)' \
	    '& LANES=$(FEWER) checks/wrong-bodies --proved' \
	    checks/release \
	    'checks/worked $(PROGRAM)' \
	    'checks/worked --tried' \
	    'checks/conformance $(PROGRAM)' \
	    'checks/program $(PROGRAM)' \
	    'checks/audits $(PROGRAM)' \
	    'checks/examples $(PROGRAM)' \
	    'checks/formats $(PROGRAM)' \
	    checks/values \
	    checks/launcher \
	    'release/documents --check' \
	    'checks/documents $(PROGRAM)' \
	    checks/summing \
	    'checks/hostile $(PROGRAM)' \
	    'checks/machines $(PROGRAM)' \
	    'checks/rv32 $(PROGRAM)' \
	    'checks/growths $(STRESS)' \
	    'checks/plans --plans 200 $(PROGRAM)' \
	    'checks/orders --pairs 60 --most 3000 $(PROGRAM)' \
	    checks/prebuilt

# Notes that rt ci has proved the program.
PROVED = release/build --note program "rt ci" "$$(cat out/proving)" && rm out/proving

# Ends with status 1 where something differs.
conformance:
	@for it in $(firstword $(HART)) riscv64-unknown-elf-gcc; do command -v $$it >/dev/null || { \
	    echo "there is no $$it; Debian's packages are qemu-system-misc and gcc-riscv64-unknown-elf" >&2; exit 2; }; done
	@$(MAKE) build
	conformance/run --cases conformance/out/cases -- $(HART)

fuzz: library
	@mkdir -p out && clang -g -O1 -fsanitize=fuzzer,address,undefined -Iinclude examples/fuzz.c $(LIBRARY) -o out/fuzz \
	    || { echo "Debian's packages are clang and libclang-rt-14-dev" >&2; exit 2; }
	out/fuzz -max_len=1024 -len_control=0 -max_total_time=$(SECONDS)

reports:
	@checks/reports

mutants: build
	checks/conformance --every-way $(PROGRAM)

captures: build
	checks/captures $(PROGRAM)

rv32: build
	checks/rv32 $(PROGRAM)

qemu: library
	@integrations/qemu/try $(or $(VERSION),10.0)

install:
	@parts=$$(release/ready program library) && release/install $$parts

install-program:
	@parts=$$(release/ready program) && release/install $$parts

install-library:
	@parts=$$(release/ready library) && release/install $$parts

uninstall:
	@release/install --remove

dist:
	@release/dist $(if $(TARGET),--target $(TARGET))

dist-test: build library
	checks/release --all

# Proves and builds the library and the program, and compares their times with plain C.
bench: bench-decide bench-emulator bench-threads bench-limits bench-audit bench-page

bench-decide: library bench-qemu
	@bench/decide

bench-emulator: library bench-qemu
	@bench/emulate

bench-qemu:
	@mkdir -p bench/out
	@bench/qemu/fetch bench/out/qemu-10 trixie || echo "QEMU 10's source can't be fetched, so it isn't timed"
	@bench/qemu/fetch bench/out/qemu-10.2 sid 1:10.2.2+ds-1 \
	    || echo "QEMU 10.2's source can't be fetched, so it isn't timed"

bench-threads: stress
	gcc -O2 -std=c11 -Wall -Wextra -pthread bench/threads.c bench/spike_like.c -o bench/out/threads
	$(STRESS) bench
	bench/out/threads

bench-limits: stress
	bench/most-memory $(STRESS) fill 16384 64
	bench/most-memory $(STRESS) fill 16384 64 together
	bench/most-memory $(STRESS) fill 1000000 1
	bench/most-memory $(STRESS) fill 1000000 1 together

bench-audit: build
	@mkdir -p bench/out
	gcc -O2 -std=c11 -Wall -Wextra bench/audit.c bench/spike_like.c -o bench/out/audit
	bench/out/audit $(PROGRAM)

bench-page: page
	@command -v chromium >/dev/null || { echo "there is no chromium, so the page isn't timed"; exit; }; bench/page

soak: stress
	bench/most-memory $(STRESS) soak $(SECONDS)

stress:
	@mkdir -p bench/out
	@echo "proving and building the program; the log is bench/out/stress.log"
	@(cd crates/pmp_stress && rt run --jobs 1) >bench/out/stress.log 2>&1 || { cat bench/out/stress.log >&2; exit 1; }
