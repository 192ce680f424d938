# Proves, builds and installs the programs and the library.
#
#   make            proves and builds all of it
#   make library    the library alone, in C's forms and for bindings/python
#   make wheel      a wheel of the Python package, with the programs, for each CPython from 3.8, in bindings/python/dist
#   make dist       what is handed out, in dist: source, programs and library, a Debian package, the wheel
#   make test       tests all that users see, without waiting for proofs
#   make check      proves and tests all, but for the proofs that have passed on this machine before
#   make mutants    tries the wrong bodies that make check leaves out; CRATE='NAME ..' those of these crates alone; KEPT=FILE
#                   goes on after a run that was stopped, by what that has written there
#   make install    to PREFIX (/usr/local), below DESTDIR where that is set
#   make uninstall  takes away what install has put there

PREFIX = /usr/local
DESTDIR =
CC = cc
PYTHON = python3
INSTALL = install

PROGRAMS = ansi2text ansi2html ansi2screen ansi2svg parselog
# those that shells complete the words of
COMPLETED = $(PROGRAMS)
# the scripts of tests/
TESTS = asked browser cells classes contrast costs dist documents install library library_python links packages pictures programs pyte \
    screen_library screen_twin vectors
# those that want what is proved: they count instructions, or make what is handed out
PROVED = costs cells dist
# what the library does: each has a header and a manual page of its own
INTERFACES = ansi_events ansi_html ansi_safe ansi_screen ansi_shown ansi_strip
# the functions that a manual page names: by each of them `man` finds that page
FUNCTIONS_OF = sed -n 's/^\.Nm \(ansi_[a-z_]*\).*/\1/p'
VERSION := $(shell sed -n 's/^pub const VERSION: &str = "\(.*\)";$$/\1/p' crates/command_line/src/options.rt)
MAJOR := $(firstword $(subst ., ,$(VERSION)))

ARCHIVE = crates/ansi/out/libansi.a
SHARED = crates/ansi/out/libansi.so
# the screen, a library of its own, since it takes memory; and over malloc and free what it takes memory by, of the kit
SCREEN_ARCHIVE = crates/ansi_screen_c/out/libansi_screen.a
SCREEN_SHARED = crates/ansi_screen_c/out/libansi_screen.so
HEAP = $(dir $(realpath $(shell command -v rt)))../c/liblibc_c.a
# the Python package; the library that it loads, which stands beside its modules; the rules of its pages by classes; and what
# makes its events in C, where this Python can be built for
PACKAGE = bindings/python/src/ansi_proved
LOADED = $(PACKAGE)/libansi.so
SCREEN_LOADED = $(PACKAGE)/libansi_screen.so
RULES = $(PACKAGE)/classes.css
EXTENSION = $(PACKAGE)/_events.abi3.so
PYTHON_HEADERS := $(shell $(PYTHON) -c 'import os, sysconfig as it; at = it.get_path("include"); \
    print(at if os.path.exists(at + "/Python.h") and not it.get_config_var("Py_GIL_DISABLED") else "")' 2>/dev/null)
FILES_OF_PACKAGE = $(patsubst $(PACKAGE)/%,%,$(wildcard $(addprefix $(PACKAGE)/,*.py *.pyi pyte/*.py pyte/*.pyi py.typed *.html)) $(RULES))
# the programs that a wheel puts on the path
OF_WHEEL = $(PROGRAMS:%=bindings/python/programs/%)
# the oldest C library that the wheel is for, which the programs ask for
WHEEL_FOR = manylinux_2_34_x86_64
# (pip takes what builds a wheel from this Python where that has it, and else from its index)
WHEEL_BY = $(shell $(PYTHON) -c 'import setuptools as it; it.Distribution().get_command_class("bdist_wheel"); \
    assert int(it.__version__.split(".")[0]) >= 61' 2>/dev/null && echo --no-build-isolation)

BIN = $(DESTDIR)$(PREFIX)/bin
LIB = $(DESTDIR)$(PREFIX)/lib
HEADERS = $(DESTDIR)$(PREFIX)/include
MAN = $(DESTDIR)$(PREFIX)/share/man
BASH = $(DESTDIR)$(PREFIX)/share/bash-completion/completions
ZSH = $(DESTDIR)$(PREFIX)/share/zsh/site-functions
FISH = $(DESTDIR)$(PREFIX)/share/fish/vendor_completions.d
# the folder below PREFIX in which this Python looks for modules (Debian's has folders of its own), or else the usual one
LOOKS_IN = import site, sys, sysconfig as it; given, known = sys.argv[1], [*sys.path, site.getusersitepackages()];
MODULES_IN = $(shell $(PYTHON) -c '$(LOOKS_IN) \
    ways = [way for way in ("posix_local", "deb_system", "posix_prefix") if way in it.get_scheme_names()]; \
    found = [it.get_path("purelib", way, vars={"base": given}).replace("/local/local/", "/local/") for way in ways]; \
    print(*[at for at in found if at.startswith(given + "/lib/") and at in known][:1] or found[-1:])' $(PREFIX))
MODULES = $(DESTDIR)$(MODULES_IN)/$(notdir $(PACKAGE))
# A program that is linked to the library starts once the loader knows of it: by ldconfig, which root may run, where the loader looks in
# that folder (ldconfig lists those); else by LD_LIBRARY_PATH. (Debian has ldconfig where users do not look for programs.)
LOADING = PATH="$$PATH:/usr/sbin:/sbin"; looks=; \
    for folder in $$(ldconfig -NXv 2> /dev/null | sed -n 's|^\(/[^:]*\):.*|\1|p'); do [ $$folder -ef $(LIB) ] && looks=yes; done; \
    if [ -z "$$looks" ]; then \
        echo "The loader does not look in $(LIB): LD_LIBRARY_PATH has to name it, for programs that are linked to what is there."; \
    elif ! ldconfig 2> /dev/null; then \
        echo "ldconfig has to be run as root, before programs start that are linked to what is in $(LIB)."; \
    fi

BUILT = $(foreach name,$(PROGRAMS),crates/$(name)/out/$(name))
SOURCES := crates.txt $(shell find crates -path '*/out' -prune -o -path '*/must-fail' -prune -o -type f ! -name README.md -print)

all: programs library

programs: $(BUILT)

library: $(SHARED) $(LOADED) $(SCREEN_SHARED) $(SCREEN_LOADED) $(RULES) $(PACKAGE)/ansi_events.h $(if $(PYTHON_HEADERS),$(EXTENSION))

ifeq ($(PYTHON_HEADERS),)
ifneq ($(filter all library install,$(or $(MAKECMDGOALS),all)),)
$(info $(EXTENSION) is left out: $(PYTHON) has no Python.h for it. The Python package goes without it.)
endif
endif

# said where there is no kit to build with
HAS_KIT = command -v rt > /dev/null || { \
    echo "rt is not on the path: it comes with the kit of Rattle, by which all is proved and built (README.md)." >&2; \
    echo "What was built elsewhere needs no kit: install the files that 'make dist' makes there." >&2; exit 1; }

# rt builds a program when it runs it; with nothing to read it writes nothing. The stamp of the
# file is set in any case, so that the next `make` has nothing to do.
$(BUILT): $(SOURCES)
	@$(HAS_KIT)
	cd crates/$(@F) && rt run < /dev/null > /dev/null
	touch $@

$(ARCHIVE): $(SOURCES)
	@$(HAS_KIT)
	cd crates/ansi && rt lib
	touch $@

# (rt writes to no folder with links, so here the name has no version. Two makes may build one file at once.)
$(SHARED): $(ARCHIVE)
	$(CC) -shared -Wl,-soname,libansi.so.$(MAJOR) -o $@.$$$$ \
	    -Wl,--whole-archive $(ARCHIVE) -Wl,--no-whole-archive && mv $@.$$$$ $@

# (one object, of which other libraries see the functions of the header alone)
$(SCREEN_ARCHIVE): $(SOURCES)
	@$(HAS_KIT)
	cd crates/ansi_screen_c && rt lib
	room=$@.$$$$ && mkdir -p $$room && cd $$room && ar x ../libansi_screen_c.a && ar x $(HEAP) heap.pic.o && ld -r -o made *.o && \
	    objcopy --wildcard --keep-global-symbol='ansi_screen_*' --keep-global-symbol='ansi_shown_*' made screen.o && rm -f made.a && ar rcs made.a screen.o && \
	    cd $(CURDIR) && mv $$room/made.a $@ && rm -r $$room

$(SCREEN_SHARED): $(SCREEN_ARCHIVE)
	$(CC) -shared -Wl,-soname,libansi_screen.so.$(MAJOR) -o $@.$$$$ \
	    -Wl,--whole-archive $(SCREEN_ARCHIVE) -Wl,--no-whole-archive && mv $@.$$$$ $@

$(LOADED): $(SHARED)
	cp $< $@.$$$$ && mv $@.$$$$ $@

$(SCREEN_LOADED): $(SCREEN_SHARED)
	cp $< $@.$$$$ && mv $@.$$$$ $@

$(RULES): crates/ansi2html/out/ansi2html
	$< --stylesheet > $@.$$$$ && mv $@.$$$$ $@

# (beside the extension, so that setuptools finds it wherever the package's folder goes)
$(PACKAGE)/ansi_events.h: include/ansi_events.h
	cp $< $@.$$$$ && mv $@.$$$$ $@

$(EXTENSION): $(PACKAGE)/_events.c $(PACKAGE)/ansi_events.h
	$(CC) -std=c99 -O2 -fPIC -shared -isystem $(PYTHON_HEADERS) -o $@.$$$$ $< && mv $@.$$$$ $@

bindings/python/programs/%: $(BUILT)
	mkdir -p $(@D)
	$(INSTALL) crates/$*/out/$* $@.$$$$ && mv $@.$$$$ $@

# (what is wanting is said before anything is built)
wheel:
	@$(HAS_KIT)
	@PYTHON='$(PYTHON)' CC='$(CC)' HEAP='$(HEAP)' WHEEL_BY='$(WHEEL_BY)' packaging/wanting wheel
	$(MAKE) made-wheel

# (what an earlier wheel was made of would go into this one too)
made-wheel: library $(OF_WHEEL)
	rm -rf bindings/python/build
	rt version > $(PACKAGE)/KIT
	$(PYTHON) -m pip wheel --no-deps $(WHEEL_BY) --config-settings=--build-option=--plat-name=$(WHEEL_FOR) \
	    --wheel-dir bindings/python/dist ./bindings/python

# (a script of its own, which builds by this Makefile, installs into a folder and packs that)
dist:
	@$(HAS_KIT)
	VERSION=$(VERSION) PYTHON='$(PYTHON)' CC='$(CC)' HEAP='$(HEAP)' WHEEL_BY='$(WHEEL_BY)' packaging/dist

# (what is not proved gets no further than a copy)
test:
	@$(HAS_KIT)
	$(PYTHON) tests/try_all.py $(foreach name,$(PROVED),--but $(name)) $(filter-out $(PROVED),$(TESTS))

# (by itself `rt ci` expects of a large crate some three times the memory that it takes, and leaves processors idle: so it is told to
# check as many crates at once as there are processors, where each has 4 GB)
check: export RT_JOBS ?= $(shell \
    awk -v processors="$$(nproc)" '/^MemAvailable:/ && $$2 >= processors * 4194304 { print processors }' /proc/meminfo)
check:
	@$(HAS_KIT)
	$(PYTHON) tests/side_by_side.py 'rt ci' $(TESTS)

mutants:
	@$(HAS_KIT)
	$(PYTHON) mutants/try $(if $(KEPT),--kept $(KEPT)) $(CRATE)

# what is installed for no language in particular
install-native: programs $(SHARED) $(SCREEN_SHARED)
	$(INSTALL) -d $(BIN) $(LIB)/pkgconfig $(HEADERS) $(MAN)/man1 $(MAN)/man3 $(MAN)/man7 $(BASH) $(ZSH) $(FISH)
	for name in $(PROGRAMS); do \
	    $(INSTALL) crates/$$name/out/$$name $(BIN)/$$name && \
	    $(INSTALL) -m 644 man/$$name.1 $(MAN)/man1/$$name.1 || exit 1; \
	done
	for name in $(COMPLETED); do \
	    $(INSTALL) -m 644 completions/$$name.bash $(BASH)/$$name && \
	    $(INSTALL) -m 644 completions/$$name.zsh $(ZSH)/_$$name && \
	    $(INSTALL) -m 644 completions/$$name.fish $(FISH)/$$name.fish || exit 1; \
	done
	for name in $(INTERFACES); do \
	    $(INSTALL) -m 644 include/$$name.h $(HEADERS)/$$name.h && \
	    $(INSTALL) -m 644 man/$$name.3 $(MAN)/man3/$$name.3 || exit 1; \
	    for function in $$($(FUNCTIONS_OF) man/$$name.3); do \
	        echo ".so man3/$$name.3" > $(MAN)/man3/$$function.3 && chmod 644 $(MAN)/man3/$$function.3 || exit 1; \
	    done; \
	done
	$(INSTALL) -m 644 man/ansi_functions.7 man/ansi_keys.7 $(MAN)/man7
	$(INSTALL) -m 644 $(ARCHIVE) $(LIB)/libansi.a
	$(INSTALL) $(SHARED) $(LIB)/libansi.so.$(VERSION)
	ln -sf libansi.so.$(VERSION) $(LIB)/libansi.so.$(MAJOR)
	ln -sf libansi.so.$(MAJOR) $(LIB)/libansi.so
	$(INSTALL) -m 644 $(SCREEN_ARCHIVE) $(LIB)/libansi_screen.a
	$(INSTALL) $(SCREEN_SHARED) $(LIB)/libansi_screen.so.$(VERSION)
	ln -sf libansi_screen.so.$(VERSION) $(LIB)/libansi_screen.so.$(MAJOR)
	ln -sf libansi_screen.so.$(MAJOR) $(LIB)/libansi_screen.so
	sed 's|@PREFIX@|$(PREFIX)|; s|@VERSION@|$(VERSION)|' include/ansi.pc.in > $(LIB)/pkgconfig/ansi.pc
	sed 's|@PREFIX@|$(PREFIX)|; s|@VERSION@|$(VERSION)|' include/ansi_screen.pc.in > $(LIB)/pkgconfig/ansi_screen.pc
	chmod 644 $(LIB)/pkgconfig/ansi.pc $(LIB)/pkgconfig/ansi_screen.pc

install: all install-native
	$(INSTALL) -d $(MODULES)/pyte
	for name in $(FILES_OF_PACKAGE); do $(INSTALL) -m 644 $(PACKAGE)/$$name $(MODULES)/$$name || exit 1; done
	for name in ansi ansi_screen; do \
	    ln -sf "$$(realpath --relative-to=$(MODULES) $(LIB))/lib$$name.so.$(MAJOR)" $(MODULES)/lib$$name.so || exit 1; \
	done
	$(if $(PYTHON_HEADERS),$(INSTALL) $(EXTENSION) $(MODULES)/$(notdir $(EXTENSION)))
	@$(PYTHON) -c '$(LOOKS_IN) \
	    given in known or print("$(PYTHON) does not look in %s: PYTHONPATH has to name it." % given)' $(MODULES_IN)
	@$(if $(DESTDIR),,$(LOADING))

uninstall:
	for name in $(PROGRAMS); do rm -f $(BIN)/$$name $(MAN)/man1/$$name.1; done
	for name in $(COMPLETED); do rm -f $(BASH)/$$name $(ZSH)/_$$name $(FISH)/$$name.fish; done
	for name in $(INTERFACES); do \
	    rm -f $(HEADERS)/$$name.h $(MAN)/man3/$$name.3; \
	    for function in $$($(FUNCTIONS_OF) man/$$name.3); do rm -f $(MAN)/man3/$$function.3; done; \
	done
	rm -f $(MAN)/man7/ansi_functions.7 $(MAN)/man7/ansi_keys.7
	for name in ansi ansi_screen; do \
	    rm -f $(LIB)/lib$$name.a $(LIB)/pkgconfig/$$name.pc $(LIB)/lib$$name.so $(LIB)/lib$$name.so.$(MAJOR); \
	    rm -f $(LIB)/lib$$name.so.$(VERSION); \
	done
	for name in $(FILES_OF_PACKAGE) $(notdir $(LOADED) $(SCREEN_LOADED) $(EXTENSION)); do rm -f $(MODULES)/$$name; done
	rm -rf $(MODULES)/__pycache__ $(MODULES)/pyte/__pycache__
	for folder in $(MODULES)/pyte $(MODULES); do if [ -d $$folder ]; then rmdir --ignore-fail-on-non-empty $$folder; fi; done

.PHONY: all programs library wheel made-wheel dist test check mutants install install-native uninstall
