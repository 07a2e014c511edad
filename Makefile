# demo: proves the library and plays a season with the command line over it.
# test: everything, proved from nothing where nothing on the machine has kept it; the last line is 'N passed, M failed'.
# lib: the proved C library target/staticlib/libcapi.a, and what is installed: archive and shared library with the functions in plain C (c/).
# install, uninstall: library, headers, pkg-config file, command, manual page and completions under PREFIX.
# clean: removes all that was made, the proofs' results in crates/*/out too.
.PHONY: demo test bench lib install uninstall clean

PREFIX ?= /usr/local
BINDIR ?= $(PREFIX)/bin
LIBDIR ?= $(PREFIX)/lib
INCLUDEDIR ?= $(PREFIX)/include
DATADIR ?= $(PREFIX)/share

CARGO = cargo $(1) --manifest-path rust/Cargo.toml --locked --offline
CC = gcc
CFLAGS ?= -O2
STRICT = -std=c89 -Wall -Wextra -Wpedantic -Wconversion
VERSION := $(shell sed -n 's/^\#define PEVGHAZO_VERSION_[MP][A-Z]* //p' include/pevghazo/version.h | paste -s -d .)
# The shared library's: its first number grows with each change that programs linked before do not stand, its second with new functions or promises.
INTERFACE = 3.7.0
SONAME = libpevghazo.so.$(firstword $(subst ., ,$(INTERFACE)))

LIBRARY = target/staticlib/libcapi.a
HEADERS = include/pevghazo.h $(wildcard include/pevghazo/*.h)
PLAIN = $(patsubst c/%.c,target/c/%.o,$(wildcard c/*.c))
ARCHIVE = target/lib/libpevghazo.a
SHARED = target/lib/libpevghazo.so.$(INTERFACE)
COMMAND = rust/target/release/pevghazo

demo:
	@bash scripts/tools rt cargo gcc
	@$(MAKE) --no-print-directory lib
	$(call CARGO,run) --quiet --release -p pevghazo-cli -- demo

test:
	@bash scripts/tools rt python3 cargo gcc valgrind pkg-config
	@bash scripts/gate

bench:
	@bash scripts/tools rt cargo gcc
	@$(MAKE) --no-print-directory lib
	bash scripts/archive bench_exports
	bash bench/run

lib: $(ARCHIVE) $(SHARED)

# Proves what changed since it was last proved, and makes the library.
$(LIBRARY): crates.txt toolchain $(shell find crates -name out -prune -o -name '*.rt' -print -o -name '*.antt' -print)
	@bash scripts/tools rt
	bash scripts/archive capi

target/c/%.o: c/%.c $(HEADERS)
	@mkdir -p $(@D)
	$(CC) $(STRICT) $(CFLAGS) -fPIC -Iinclude -c $< -o $@

# The proved library, with the functions in plain C beside it.
$(ARCHIVE): $(LIBRARY) $(PLAIN)
	@mkdir -p $(@D)
	cp $(LIBRARY) $@.new
	$(AR) r $@.new $(PLAIN)
	mv $@.new $@

# Code that cannot be moved in memory is refused (text), and so is a name that no library has (defs).
$(SHARED): $(ARCHIVE) c/exports.map
	$(CC) $(LDFLAGS) -shared -Wl,-soname,$(SONAME) -Wl,--version-script=c/exports.map -Wl,-z,text -Wl,-z,defs -Wl,-z,relro -Wl,-z,now \
	  -Wl,--whole-archive $(ARCHIVE) -Wl,--no-whole-archive -o $@

$(COMMAND): $(LIBRARY) $(shell find rust -path rust/target -prune -o -name '*.rs' -print -o -name 'Cargo.*' -print)
	$(call CARGO,build) --release -p pevghazo-cli
	@touch $@

# A folder as the pkg-config file names it.
UNDER = $(subst $(PREFIX)/,$${prefix}/,$(1))
# A text as sed puts it in the place of another.
plain = $$(printf '%s' '$(1)' | sed 's/[\\&|]/\\&/g')

# What is installed: a mode, a file and its place under DESTDIR, for each.
define FILES
644 $(ARCHIVE) $(LIBDIR)/libpevghazo.a
644 $(SHARED) $(LIBDIR)/libpevghazo.so.$(INTERFACE)
644 target/lib/pevghazo.pc $(LIBDIR)/pkgconfig/pevghazo.pc
644 include/pevghazo.h $(INCLUDEDIR)/pevghazo.h
$(foreach header,$(notdir $(wildcard include/pevghazo/*.h)),644 include/pevghazo/$(header) $(INCLUDEDIR)/pevghazo/$(header)
)755 $(COMMAND) $(BINDIR)/pevghazo
644 man/pevghazo.1 $(DATADIR)/man/man1/pevghazo.1
644 completions/pevghazo.bash $(DATADIR)/bash-completion/completions/pevghazo
644 completions/_pevghazo $(DATADIR)/zsh/site-functions/_pevghazo
644 completions/pevghazo.fish $(DATADIR)/fish/vendor_completions.d/pevghazo.fish
endef
export FILES

install: lib $(COMMAND)
	sed -e "s|@PREFIX@|$(call plain,$(PREFIX))|" -e "s|@VERSION@|$(VERSION)|" -e "s|@LIBDIR@|$(call plain,$(call UNDER,$(LIBDIR)))|" \
	  -e "s|@INCLUDEDIR@|$(call plain,$(call UNDER,$(INCLUDEDIR)))|" pevghazo.pc.in >target/lib/pevghazo.pc
	@echo "$$FILES" | while read -r mode file place; do \
	  [ -n "$$mode" ] || continue; \
	  echo "$(DESTDIR)$$place"; \
	  install -d -m 755 "$(DESTDIR)$${place%/*}" && install -m "$$mode" "$$file" "$(DESTDIR)$$place" || exit 1; \
	done
	ln -sf libpevghazo.so.$(INTERFACE) "$(DESTDIR)$(LIBDIR)/$(SONAME)"
	ln -sf $(SONAME) "$(DESTDIR)$(LIBDIR)/libpevghazo.so"

uninstall:
	@echo "$$FILES" | while read -r mode file place; do \
	  [ -n "$$mode" ] || continue; \
	  rm -f "$(DESTDIR)$$place" || exit 1; \
	done
	rm -f "$(DESTDIR)$(LIBDIR)/$(SONAME)" "$(DESTDIR)$(LIBDIR)/libpevghazo.so"
	if [ -d "$(DESTDIR)$(INCLUDEDIR)/pevghazo" ]; then rmdir --ignore-fail-on-non-empty "$(DESTDIR)$(INCLUDEDIR)/pevghazo"; fi

clean:
	rm -rf target rust/target crates/*/out
