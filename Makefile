# make run      prove both programs and the library, look through the sample PERMIT.TXT, mend one that came by mail, show the desk at work, which charts
#               of a ship are behind, and a cell file enciphered and opened
# make test     the whole gate: every proof, then the comparisons with programs of others
# make bench    our cipher, checksum, permits, mending, book, product list, cell files and look-through beside OpenSSL's, Botan's, zlib's and plain C
# make lib      the library for C: target/staticlib/liblambukir.a, target/sharedlib/liblambukir.so and target/include/lambukir.h
# make install  what make lib built, with a pkg-config file and the samples, below PREFIX, or below DESTDIR and PREFIX; it proves nothing
# make help     this list

CC = tests/x86-64 gcc
CFLAGS = -std=c11 -O2 -Wall -Wextra -Werror
VERSION := $(shell sed -n 's/^.define LAMBUKIR_VERSION "\([^"]*\)".*/\1/p' include/lambukir.h)
# the first two numbers of the version: while the first is 0, each second one may change the interface
SONAME = liblambukir.so.$(basename $(VERSION))
LIBRARY = target/staticlib/liblambukir.a
SHARED = target/sharedlib/liblambukir.so.$(VERSION)
PROBE = target/staticlib/libprobe.a
# where Debian's package has the headers of Botan
BOTAN = -I/usr/include/botan-2
HEADER = target/include/lambukir.h
PREFIX = /usr/local
PLACE = $(DESTDIR)$(PREFIX)

COMPARISONS = $(basename $(notdir $(shell grep -l run_subjects tests/*.c)))
MODEL = $(addprefix target/tests/,model.o model_book.o model_cell_file.o model_file.o model_mending.o model_products.o)

# what a crate is made of: its own files and those of all that it uses, and their folders, which tell of a file taken away. Not the crate's own folder,
# whose time goes with out/, which rt makes in it.
files_of = crates.txt $(foreach crate,$(shell tests/crates $(1)),$(shell find crates/$(crate) -mindepth 1 \( -name must-fail -o -name out \) -prune -o -print))

.PHONY: help run test bench lib install built proved comparisons

help:
	@sed -n '/^$$/q; s/^# //p' Makefile

run: target/compiler proved target/sample/desk target/sample/standing target/sample/cell_file
	@printf '\nThe look-through of sample/PERMIT.TXT:\n\n'
	@sample/look_through
	@printf '\nsample/MAILED.TXT as it came by mail, where ^M is CR and $$ is LF:\n\n'
	@sample/mend
	@printf '\nThe desk at work:\n\n'
	@tests/x86-64 target/sample/desk
	@printf '\nThe charts of a ship, held against sample/PRODUCTS.TXT:\n\n'
	@tests/x86-64 target/sample/standing sample/PRODUCTS.TXT
	@printf '\nA cell file enciphered and opened:\n\n'
	@tests/x86-64 target/sample/cell_file

test:
	@tests/run

bench: target/bench/bench target/bench/look_through target/bin/look_through
	@[ "$$(uname -m)" = x86_64 ] || echo "the library is for x86-64: here an emulator runs it, and the figures say nothing"
	tests/x86-64 target/bench/bench

lib: target/compiler $(LIBRARY) $(HEADER) $(SHARED)

# It does not ask make whether the library is up to date: whoever installs may be root, without rt, and a folder's new time would prove all again.
install: built
	install -d '$(PLACE)/include' '$(PLACE)/lib/pkgconfig' '$(PLACE)/share/doc/lambukir/sample'
	install -m 644 $(HEADER) '$(PLACE)/include'
	install -m 644 $(LIBRARY) $(SHARED) '$(PLACE)/lib'
	ln -sfn $(notdir $(SHARED)) '$(PLACE)/lib/$(SONAME)'
	ln -sfn $(SONAME) '$(PLACE)/lib/liblambukir.so'
	printf '%s\n' 'prefix=$(PREFIX)' 'includedir=$${prefix}/include' 'libdir=$${prefix}/lib' '' \
		'Name: lambukir' 'Description: S-63 user permits, cell permits, PERMIT.TXT files, product lists, cell files and the book of cell keys' 'Version: $(VERSION)' \
		'Cflags: -I$${includedir}' 'Libs: -L$${libdir} -llambukir' | install -m 644 /dev/stdin '$(PLACE)/lib/pkgconfig/lambukir.pc'
	install -m 644 README.md LICENSE '$(PLACE)/share/doc/lambukir'
	install -m 644 $(wildcard sample/*.c sample/*.py) sample/PERMIT.TXT sample/MAILED.TXT sample/PRODUCTS.TXT '$(PLACE)/share/doc/lambukir/sample'

# What make lib builds is there, and of one build: the shared library comes last, and tests/prove gives a library the time 0 where a proof failed.
# A source that is newer is told and no more, since a checkout or a copy of the tree makes sources newer that are as they were.
# Where lib and install are asked for at once, lib comes first.
built: $(filter lib,$(MAKECMDGOALS))
	@[ "$$(find $(LIBRARY) $(HEADER) $(SHARED) -newermt @0 ! -newer $(SHARED) 2>/dev/null | wc -l)" -eq 3 ] || \
		{ echo 'There is no library to install, or not all of one build: make lib comes first.' >&2; exit 1; }
	@newer=$$(find crates.txt include/lambukir.h $(addprefix crates/,$(shell tests/crates lambukir)) \
		\( -name must-fail -o -name out \) -prune -o -type f -newer $(SHARED) -print | head -n 1); \
		[ -z "$$newer" ] || echo "This installs what was built before $$newer changed." >&2

# programs and library in one count
proved:
	@tests/prove look_through mend lambukir

target/bin/look_through: $(call files_of,look_through)
	@tests/prove look_through

target/bin/mend: $(call files_of,mend)
	@tests/prove mend

$(LIBRARY): $(call files_of,lambukir)
	@tests/prove lambukir

# the leaf functions, for the comparisons and the benchmark alone
$(PROBE): $(call files_of,probe)
	@tests/prove probe

$(HEADER): include/lambukir.h
	@mkdir -p $(@D)
	@cp $< $@

# All of the archive, and nothing that runs as it is loaded. It exports what the header declares, and a call within it stays within it, as is proved.
# Its three names are of one file: rt ci takes no symbolic link.
$(SHARED): $(LIBRARY) $(HEADER) | target/compiler
	@rm -rf $(@D)
	@mkdir -p $(@D)
	@{ echo '{ global:'; sed -n 's/^\(lambukir_[a-z0-9_]*\)(.*/\1;/p' $(HEADER); echo 'local: *; };'; } >$(@D)/exported
	@$(CC) -shared -nostartfiles -o $@ -Wl,--whole-archive $(LIBRARY) -Wl,--no-whole-archive -Wl,-soname,$(SONAME) \
		-Wl,--version-script=$(@D)/exported -Wl,-Bsymbolic -Wl,--no-undefined -Wl,-z,text,-z,relro,-z,now,-z,noexecstack
	@ln $@ $(@D)/$(SONAME)
	@ln $@ $(@D)/liblambukir.so

# what the samples and the shared library need of others
target/compiler: tests/packages
	@tests/packages compiler
	@mkdir -p $(@D)
	@touch $@

# what the comparisons and the benchmark need besides; not at the same time, since one apt locks out another
target/packages: tests/packages | target/compiler
	@tests/packages
	@mkdir -p $(@D)
	@touch $@

# and what the benchmark alone needs
target/bench-packages: tests/packages | target/packages
	@tests/packages bench
	@mkdir -p $(@D)
	@touch $@

target/sample/%: sample/%.c $(LIBRARY) $(HEADER) | target/compiler
	@mkdir -p $(@D)
	@$(CC) $(CFLAGS) -Itarget/include -o $@ $< $(LIBRARY)

comparisons: $(COMPARISONS:%=target/tests/%)

target/tests/%.o: tests/%.c $(wildcard tests/*.h) $(HEADER) | target/packages
	mkdir -p $(@D)
	$(CC) $(CFLAGS) -Itarget/include -c -o $@ $<

target/tests/%: tests/%.c $(wildcard tests/*.h) $(MODEL) $(LIBRARY) $(PROBE)
	$(CC) $(CFLAGS) -Itarget/include -o $@ $< $(MODEL) $(LIBRARY) $(PROBE) -lcrypto -lz

target/bench/bench: bench/bench.c bench/book.c bench/mending.c bench/products.c $(wildcard bench/*.h tests/*.h) $(MODEL) $(LIBRARY) $(PROBE) | target/bench-packages
	mkdir -p $(@D)
	$(CC) $(CFLAGS) -Itarget/include -Itests $(BOTAN) -o $@ $< bench/book.c bench/mending.c bench/products.c $(MODEL) $(LIBRARY) $(PROBE) -lcrypto -lz -lbotan-2

# with OpenSSL and zlib in it, so that both programs load the C library and nothing else
target/bench/look_through: bench/look_through.c $(wildcard tests/*.h) $(MODEL) $(HEADER)
	mkdir -p $(@D)
	$(CC) $(CFLAGS) -Itarget/include -Itests -o $@ $< $(MODEL) -Wl,-Bstatic -lcrypto -lz -Wl,-Bdynamic
