# The library and the tool for C programs and their users. `rt`, of the Rattle kit, proves and builds the library.
PREFIX ?= /usr/local
CC ?= cc
CFLAGS ?= -O2
WARNINGS = -std=c99 -Wall -Wextra -Werror -pedantic
VERSION = $(shell sed -n 's/^\#define MDF3_VERSION "\(.*\)"$$/\1/p' include/mdf3.h)
SOURCES = $(wildcard tool/*.c)
TO = $(DESTDIR)$(PREFIX)
# for programs that load libraries; the first number of the version, which changes where a call does
SHARED = libmdf3.so.1

# the library is proved and built with it
RT = $(if $(shell command -v rt 2>/dev/null),,$(error rt is not on the PATH: the Rattle kit has it, and the library is proved and built with it))

all: build/libmdf3.a build/$(SHARED) build/mdf3

help:
	@echo 'make             prove and build the library and the tool, in build/'
	@echo 'make demo        the same, then show them at work; installs a C compiler where there is none, by apt-get'
	@echo 'make install     install what is built under PREFIX ($(PREFIX)), below DESTDIR where that is given'
	@echo 'make uninstall   remove that again'
	@echo 'make check       the gate, also as make test: everything proved, and all tests; installs what it needs'
	@echo 'make bench       measure (docs/BENCHMARKS.md)'
	@echo 'make fuzz        look for differences to plain C'
	@echo 'make clean       remove build/'

build/libmdf3.a: crates.txt $(shell find crates -name out -prune -o -type f -print)
	$(RT)
	@mkdir -p build
	@[ -e $@ ] || echo 'The library is proved and built: a few minutes, the first time.'
	@(cd crates/mdf3 && rt lib) >build/rt.log 2>&1 || { cat build/rt.log >&2; exit 1; }
	@cp crates/mdf3/out/libmdf3.a $@

# all of tool/, its man page too: install looks whether something there is younger
build/mdf3: $(wildcard tool/*) include/mdf3.h build/libmdf3.a
	$(CC) $(WARNINGS) $(CFLAGS) $(LDFLAGS) -Iinclude $(SOURCES) build/libmdf3.a -o $@

build/$(SHARED): build/libmdf3.a
	$(CC) $(LDFLAGS) -shared -Wl,-soname,$(SHARED) -Wl,--whole-archive $< -Wl,--no-whole-archive -o $@

# what is built; where nothing is, it is built first. So it needs no rt, nor writes here, where another user installs.
install:
	@case '$(PREFIX)' in /*) ;; *) echo 'PREFIX has to begin with /' >&2; exit 1 ;; esac
	@[ -e build/libmdf3.a ] && [ -e build/$(SHARED) ] && [ -e build/mdf3 ] || $(MAKE) --no-print-directory all
	@[ -z "$$(find crates.txt crates include tool -name out -prune -o -type f -newer build/mdf3 -print)" ] || \
	  { echo 'what is built is older than its sources: run make first' >&2; exit 1; }
	install -d '$(TO)/include' '$(TO)/lib/pkgconfig' '$(TO)/bin' '$(TO)/share/man/man1' '$(TO)/share/doc/mdf3'
	install -m 644 include/mdf3.h '$(TO)/include/mdf3.h'
	install -m 644 build/libmdf3.a '$(TO)/lib/libmdf3.a'
	install -m 755 build/$(SHARED) '$(TO)/lib/$(SHARED)'
	ln -sf $(SHARED) '$(TO)/lib/libmdf3.so'
	sed -e 's|@PREFIX@|$(subst &,\&,$(PREFIX))|' -e 's|@VERSION@|$(VERSION)|' tool/mdf3.pc.in >'$(TO)/lib/pkgconfig/mdf3.pc'
	chmod 644 '$(TO)/lib/pkgconfig/mdf3.pc'
	install -m 755 build/mdf3 '$(TO)/bin/mdf3'
	install -m 644 tool/mdf3.1 '$(TO)/share/man/man1/mdf3.1'
	install -m 644 docs/RULES.md '$(TO)/share/doc/mdf3/RULES.md'
	@[ -n '$(DESTDIR)' ] || [ "$$(id -u)" != 0 ] || PATH="$$PATH:/sbin:/usr/sbin" ldconfig || echo 'run ldconfig, so that the shared library is found' >&2

uninstall:
	rm -f '$(TO)/include/mdf3.h' '$(TO)/lib/libmdf3.a' '$(TO)/lib/$(SHARED)' '$(TO)/lib/libmdf3.so'
	rm -f '$(TO)/lib/pkgconfig/mdf3.pc' '$(TO)/bin/mdf3' '$(TO)/share/man/man1/mdf3.1' '$(TO)/share/doc/mdf3/RULES.md'
	@rmdir '$(TO)/share/doc/mdf3' 2>/dev/null || true

test check:
	.ci/run

# installs a C compiler where there is none
demo:
	$(if $(wildcard build/libmdf3.a),,$(RT))
	@tests/needs $(firstword $(CC))
	@$(MAKE) --no-print-directory all
	@CC='$(CC)' examples/demo

bench:
	bench/run

fuzz:
	fuzz/run

clean:
	rm -rf build

.PHONY: all help install uninstall test check demo bench fuzz clean
