# make           the libraries, proved and linked, and the programs, in target/
# make demo      a season of two windrows on a fast clock, polled, compared and drawn (ARGS=--hold keeps it up)
# make test      the gate: .ci/run
# make install PREFIX=..   headers, libraries, pkg-config files, programs, examples

PREFIX ?= /usr/local
CC = gcc
CFLAGS = -std=c11 -D_XOPEN_SOURCE=700 -Wall -Wextra -Werror -pedantic -O2 -Iinclude

libraries := target/staticlib/libreader.a target/staticlib/libgateway.a
programs := gateway read dump frame
demo_programs := compare page
built := $(addprefix target/bin/windrow-,$(programs) $(demo_programs))
version := $(shell sed -n 's/^.define WINDROW_VERSION "\(.*\)"$$/\1/p' include/windrow_version.h)
headers := $(wildcard include/*.h)

.PHONY: all libraries programs demo test install clean
all: programs
programs: $(built)
libraries: $(libraries)

# What C calls of a library is exported by a thin crate over it, whose archive gets the library's name. rt proves what is not proved
# yet before it links; what it has proved it keeps in crates/*/out, copies of sources among it.
sources := crates.txt $(shell find crates -name out -prune -o \( -name '*.rt' -o -name '*.antt' \) -print)
target/staticlib/lib%.a: $(sources)
	cd crates/$*_c && rt lib
	@install -D -m 644 crates/$*_c/out/lib$*_c.a $@

target/apps/%.o: apps/%.c $(wildcard apps/*.h) $(headers)
	@mkdir -p target/apps
	$(CC) $(CFLAGS) -c $< -o $@

host = $(patsubst %,target/apps/%.o,$(1))
target/bin/windrow-gateway: $(call host,gateway setup store settings calendar line trace yard options report words)
target/bin/windrow-read: $(call host,read polling settings calendar line csv options report words)
target/bin/windrow-dump: $(call host,dump foreign polling store calendar csv options report words)
target/bin/windrow-frame: $(call host,frame polling setup calendar csv options report words settings)
target/bin/windrow-compare: $(call host,compare csvfile settings calendar trace csv options report)
target/bin/windrow-page: $(call host,page chart csvfile calendar options report)
target/bin/windrow-%: $(libraries)
	@mkdir -p target/bin
	$(CC) $(CFLAGS) $(filter %.o,$^) $(libraries) -lm -o $@

demo: programs
	apps/demo $(ARGS)

test:
	.ci/run

# The libraries have the product's name where others' libraries stand beside them.
pc = printf 'prefix=%s\nName: windrow-$(1)\nDescription: $(2)\nVersion: %s\nCflags: -I$${prefix}/include\nLibs: -L$${prefix}/lib -lwindrow_$(1)\n' \
  '$(PREFIX)' '$(version)' > $(DESTDIR)$(PREFIX)/lib/pkgconfig/windrow-$(1).pc
install: programs
	install -d $(addprefix $(DESTDIR)$(PREFIX)/,include lib/pkgconfig bin share/windrow)
	install -m 644 $(headers) $(DESTDIR)$(PREFIX)/include
	install -m 644 target/staticlib/libreader.a $(DESTDIR)$(PREFIX)/lib/libwindrow_reader.a
	install -m 644 target/staticlib/libgateway.a $(DESTDIR)$(PREFIX)/lib/libwindrow_gateway.a
	install $(addprefix target/bin/windrow-,$(programs)) $(DESTDIR)$(PREFIX)/bin
	install -m 644 examples/*.c apps/season.settings $(DESTDIR)$(PREFIX)/share/windrow
	@$(call pc,reader,the reading end of the windrow gateway for site drivers)
	@$(call pc,gateway,the archive and the Modbus answers of the windrow gateway for firmware)

clean:
	rm -rf target crates/*/out
