# The library: built, installed and tested.
#
#   make             the library, crates/otto/out/libotto.a: the kit proves and
#                    builds it, where a source is younger
#   make install     the archive, the headers, otto.pc for pkg-config, a package
#                    for CMake, the man pages, the license, CHANGELOG.md and
#                    HOST.md, under PREFIX
#   make uninstall   takes away what make install put there
#   make test        .ci/run, and the tests of host/
#   make help        says this
#
#   PREFIX    where the library is to be, /usr/local if it is not given
#   DESTDIR   a folder that stands for / while a package is made
#
# The folders under PREFIX have the names of the GNU coding standards, such as
# libdir and mandir, and may be given by them. Installing needs the kit only
# where the archive is not there or is older than a source. The man page has a
# date where SOURCE_DATE_EPOCH is one; nothing else that is installed has any.

PREFIX ?= /usr/local

prefix = $(PREFIX)
exec_prefix = $(prefix)
includedir = $(prefix)/include
libdir = $(exec_prefix)/lib
pkgconfigdir = $(libdir)/pkgconfig
cmakedir = $(libdir)/cmake/otto
datarootdir = $(prefix)/share
docdir = $(datarootdir)/doc/otto
mandir = $(datarootdir)/man
man3dir = $(mandir)/man3

INSTALL = install
INSTALL_DATA = $(INSTALL) -m 644

VERSION := $(shell cat VERSION)
HEADERS := $(notdir $(wildcard include/*.h include/*.hpp))
DOCUMENTS = LICENSE CHANGELOG.md docs/HOST.md
CALLS = $(shell package/man_page --calls include/otto.h)

TOP = .
include package/library.mk
.DEFAULT_GOAL = all

.PHONY: all install uninstall test help
.NOTPARALLEL:
.DELETE_ON_ERROR:

all: $(LIBRARY)

# ---- installing ------------------------------------------------------------

# A folder, which all may read where it is new. (install -d would change the
# mode of one that is there.)
folder = umask 022 && mkdir -p "$(DESTDIR)$(1)"

# A file, and the command that writes it.
write = umask 022 && rm -f "$(DESTDIR)$(1)" && $(2) > "$(DESTDIR)$(1)"

# A folder, and the file in it that its template becomes.
fill = $(call write,$(1)/$(2),package/fill $(VERSION) package/$(2).in "$(1)" \
    prefix="$(prefix)" includedir="$(includedir)" libdir="$(libdir)")

install: $(LIBRARY)
	$(call folder,$(libdir))
	$(INSTALL_DATA) $(LIBRARY) "$(DESTDIR)$(libdir)/libotto.a"
	$(call folder,$(includedir))
	$(INSTALL_DATA) $(HEADERS:%=include/%) "$(DESTDIR)$(includedir)"
	$(call folder,$(pkgconfigdir))
	$(call fill,$(pkgconfigdir),otto.pc)
	$(call folder,$(cmakedir))
	$(call fill,$(cmakedir),otto-config.cmake)
	$(call fill,$(cmakedir),otto-config-version.cmake)
	$(call folder,$(man3dir))
	$(call write,$(man3dir)/otto.3,package/man_page $(VERSION) include/otto.h)
	set -e; for call in $(CALLS); do \
	    $(call write,$(man3dir)/$$call.3,echo ".so man3/otto.3"); \
	done
	$(call folder,$(docdir))
	$(INSTALL_DATA) $(DOCUMENTS) "$(DESTDIR)$(docdir)"

remove = rm -f "$(DESTDIR)$(1)"

# The folders of its own go too, where nothing else is in them.
uninstall:
	$(call remove,$(libdir)/libotto.a)
	for header in $(HEADERS); do \
	    $(call remove,$(includedir)/$$header); \
	done
	$(call remove,$(pkgconfigdir)/otto.pc)
	$(call remove,$(cmakedir)/otto-config.cmake)
	$(call remove,$(cmakedir)/otto-config-version.cmake)
	for call in otto $(CALLS); do \
	    $(call remove,$(man3dir)/$$call.3); \
	done
	for document in $(notdir $(DOCUMENTS)); do \
	    $(call remove,$(docdir)/$$document); \
	done
	for folder in "$(cmakedir)" "$(docdir)"; do \
	    rmdir "$(DESTDIR)$$folder" 2> /dev/null || :; \
	done

# ---- testing ---------------------------------------------------------------

test:
	.ci/run
	$(MAKE) -C host test

help:
	@sed -n '/^#/!q; s/^# \{0,1\}//p' Makefile
