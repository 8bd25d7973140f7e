# How the library is built: LIBRARY, for the Makefile of the repository's folder
# and that of host/. TOP is the repository's folder, as the one that includes
# this sees it.

LIBRARY = $(TOP)/crates/otto/out/libotto.a

# Proved anew where a source is younger than the archive.
SOURCES := $(shell find $(TOP)/crates -name out -prune -o \( -name '*.rt' -o -name '*.antt' \) -print)

not_here = the kit is for x86-64: copy $@ from where it was made, and touch it

$(LIBRARY): $(TOP)/crates.txt $(SOURCES)
	$(if $(filter-out x86_64,$(shell uname -m)),$(error $(not_here)))
	@command -v rt > /dev/null || { \
	    echo "make: the kit's command rt is not on the path" >&2; \
	    exit 1; \
	}
	cd $(TOP)/crates/otto && rt lib --cpu x86-64
	@touch $@
