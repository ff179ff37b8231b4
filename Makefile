# Builds, checks and installs Fogsignaller. `make help` prints the lines that begin with ##.
#
# Nothing is built before it is proved; rt does both. What is missing, or older than a file that it may come from, is built
# anew, and a target's date is when its building began: what changes meanwhile is newer.

SHELL := bash
.SHELLFLAGS := -euo pipefail -c
.SUFFIXES:
# A build that failed leaves nothing that looks like an answer, nothing of an older build either.
.DELETE_ON_ERROR:
# One build after another, as rt wants it.
.NOTPARALLEL:
# A script that calls make again starts afresh.
unexport MAKEFLAGS MAKELEVEL MFLAGS

# The public calls: the crate NAME_c exports the call of the crate NAME, and is one member of the archive.
CALLS := survey route_records

PREFIX := /usr/local
DESTDIR :=
place = $(DESTDIR)$(PREFIX)

library := target/libfogsignaller.a
# A copy of what rt wrote, made once its run is as it must be: what rt itself leaves in crates/sheet/out may have failed it.
program := target/program/sheet
# Folders too: their date tells that a file was taken away. What rt keeps of each crate, in its folder out, is no source.
sources := crates.txt $(shell find crates -name out -prune -o -print)
version := $(shell sed -n 's/^.define FOG_VERSION "\([0-9.]*\)"$$/\1/p' include/fogsignaller.h)
ifeq ($(version),)
$(error include/fogsignaller.h has no FOG_VERSION)
endif

# The scripts of the command.
scripts := $(wildcard share/*.awk)
# What `make install` puts in place, and `make uninstall` takes away.
installed := include/fogsignaller.h lib/libfogsignaller.a lib/pkgconfig/fogsignaller.pc bin/fogsignaller \
	libexec/fogsignaller/sheet $(scripts:share/%=share/fogsignaller/%)
# The folders among these that nobody else uses.
own_folders := libexec/fogsignaller share/fogsignaller

define rt_is_there
@if ! type rt >/dev/null 2>&1; then \
	echo 'make: $@ has to be proved and built, and rt (the Rattle toolchain) is not there to do it' >&2; exit 1; \
fi
endef

# One build at a time: the second waits for the first, and then looks anew. The lock is the system's, on a descriptor that every
# process of a build holds: it is gone with the last of them, however that ended.
# A name of its own, or `make -n` would run it.
make := $(MAKE)
define build_alone
@if $(make) -s -q $(1) CALLS='$(CALLS)'; then exit; fi; \
if ! type flock >/dev/null 2>&1; then \
	echo 'make: flock (util-linux) is not there, which keeps two builds apart' >&2; exit 1; \
fi; \
mkdir -p target; \
exec 9>target/lock; \
if ! flock -n 9; then echo 'make: another build is under way: waiting for its end' >&2; flock 9; fi; \
$(make) -s $(1) CALLS='$(CALLS)' AR='$(AR)'
endef

# A folder out that rt makes later would make its crate's folder newer than what is built here.
define begin_in
@mkdir -p $(1) $(addsuffix out,$(wildcard crates/*/))
@touch $(1)/begun
endef

.PHONY: all library program check install uninstall version help prefix-is-whole

## make            the library and the program
all: library program

## make library    proves the public calls and writes target/libfogsignaller.a
library:
	$(call build_alone,$(library))

## make program    proves the program and writes target/program/sheet, which ./fogsignaller runs
program:
	$(call build_alone,$(program))

## make check      the gate, .ci/run: every proof from nothing, the tests and the comparisons
check:
	.ci/run

$(library): Makefile $(sources)
	@rm -rf $@ target/members
	$(rt_is_there)
	$(call begin_in,target/members)
	@echo 'proving the public calls ($(CALLS)) and writing $@'
	@for call in $(CALLS); do \
		made="crates/$${call}_c/out/lib$${call}_c.a"; \
		rm -f "$$made"; \
		(cd "crates/$${call}_c" && rt lib); \
		if (($$($(AR) t "$$made" | wc -l) != 1)); then \
			echo "$$made has not one member" >&2; exit 1; \
		fi; \
		$(AR) p "$$made" >"target/members/$$call.o"; \
	done
	@cd target/members && $(AR) rcsD libfogsignaller.a $(CALLS:%=%.o) && touch -r begun libfogsignaller.a
	@mv target/members/libfogsignaller.a $@
	@rm -rf target/members

# rt proves, builds and runs it; what it prints of crates/sheet/stdin must be crates/sheet/stdout.
$(program): $(sources)
	@rm -rf $(@D)
	$(rt_is_there)
	$(call begin_in,$(@D))
	@echo 'proving the program and writing $@'
	@cd crates/$(@F) && rt run <stdin >'$(CURDIR)/$(@D)/printed'
	@if ! cmp -s $(@D)/printed crates/$(@F)/stdout; then \
		echo 'make: the program is proved, and does not print crates/$(@F)/stdout' >&2; exit 1; \
	fi
	@cp crates/$(@F)/out/$(@F) $(@D)/new
	@touch -r $(@D)/begun $(@D)/new
	@mv $(@D)/new $@

## make install    puts the command, the library, the header and fogsignaller.pc below PREFIX, /usr/local if not given;
##                 with DESTDIR all of it stands below that folder
install: prefix-is-whole library program
	install -d "$(place)"/{include,lib/pkgconfig,bin,libexec/fogsignaller,share/fogsignaller}
	install -m 644 include/fogsignaller.h "$(place)/include/"
	install -m 644 $(library) "$(place)/lib/"
	sed -e 's|@PREFIX@|$(PREFIX)|' -e 's|@VERSION@|$(version)|' include/fogsignaller.pc.in | \
		install -m 644 /dev/stdin "$(place)/lib/pkgconfig/fogsignaller.pc"
	sed "s|^version=''\$$|version='$(version)'|" fogsignaller | install -m 755 /dev/stdin "$(place)/bin/fogsignaller"
	install -m 755 $(program) "$(place)/libexec/fogsignaller/"
	install -m 644 $(scripts) "$(place)/share/fogsignaller/"

## make uninstall  takes away what install put there, with the same PREFIX and DESTDIR
uninstall: prefix-is-whole
	rm -f $(installed:%="$(place)/%")
	for folder in $(own_folders:%="$(place)/%"); do \
		if [[ -d $$folder ]]; then rmdir --ignore-fail-on-non-empty "$$folder"; fi; \
	done

# It stands in fogsignaller.pc, where other signs would have to be quoted.
prefix-is-whole:
	@if [[ ! '$(PREFIX)' =~ ^/[A-Za-z0-9._/+@~-]*$$ ]]; then \
		echo 'make: PREFIX must be a whole path of letters, digits and ._+@~- signs: $(PREFIX)' >&2; exit 1; \
	fi

## make version    prints the version, FOG_VERSION of the header
version:
	@echo '$(version)'

## make help       this text
help:
	@sed -n 's/^## //p' Makefile
