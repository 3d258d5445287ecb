# Builds the libraries and the program from dist/, which contains the assembly of the proved code
# (dist/README.md). A C compiler, and xz or python3 are needed. The machine that $(CC) -dumpmachine prints selects
# the folder of dist/. On processors with 32-bit words there are libpie_c.a and libpie.so, without links and without the program.
#
#   make                 the libraries and the program, in build/
#   make CC=aarch64-linux-gnu-gcc               the same for another processor
#   make check CC=aarch64-linux-gnu-gcc RUN=qemu-aarch64     checks what was built for it, by an emulator
#   make check           runs the worked rows and the examples with them; reports what cannot run here
#   make install         installs everything below PREFIX (/usr/local); install-library and install-program install a part
#   make uninstall       removes the files that `make install` installs
#   make web             web/juniperbowls.html: the page that runs the program in a browser; python3 and Debian's libjs-dygraphs are needed
#   make npm             build/npm: the package for npm with pie.h's calls in WebAssembly; python3 is needed
#   make crate           build/crate: the crate for Rust with the assembly, in the form that `cargo package` accepts
#   make archive         build/juniperbowls-VERSION.tar.gz for any Debian 12 or later; it can be unpacked anywhere
#   make clean           removes build/ and the page
#   make shared, make program, make libraries     build a part
#
# Variables: CC, CPPFLAGS, CFLAGS, LDFLAGS, AR; DESTDIR, PREFIX, BINDIR, LIBDIR, INCLUDEDIR,
# DATADIR, MANDIR, DOCDIR; BUILD, the folder of all built files; PROCESSOR, a folder of dist/; PIE_C_S,
# PIE_LINK_C_S and PIE_S, other assembly, for example crates/pie_c/out/pie_c.S, which bindings/c/library.py writes;
# DYGRAPHS, the library that draws the page's charts.

VERSION := $(shell sed -n 's/^.define PIE_VERSION "\(.*\)"$$/\1/p' include/pie.h)
MAJOR := $(firstword $(subst ., ,$(VERSION)))
SONAME := libpie.so.$(MAJOR)
BUILD ?= build

# The folder of dist/ for the compiler's machine. The code is for Linux and little-endian processors.
MACHINE := $(filter-out %gnux32 %ilp32,$(foreach it,$(shell $(CC) -dumpmachine),$(if $(findstring linux,$(it)),$(it))))
PROCESSOR ?= $(strip $(foreach it,x86_64 aarch64 riscv64 mipsel,$(if $(filter $(it)-%,$(MACHINE)),$(it))) \
	$(if $(filter arm-% armv7-% armv7l-% armv7a-%,$(MACHINE)),armv7))
ifeq ($(PROCESSOR)$(filter clean web npm,$(MAKECMDGOALS)),)
$(error no assembly in dist/ for the machine of $(CC), $(or $(shell $(CC) -dumpmachine),which prints none): dist/ has $(notdir $(patsubst %/,%,$(dir $(wildcard dist/*/pie_c.S*)))), \
for Linux; big-endian processors are not supported)
endif
# (all but the libraries for x86-64 is compressed)
PIE_C_S ?= $(wildcard dist/$(PROCESSOR)/pie_c.S*)
PIE_LINK_C_S ?= $(wildcard dist/$(PROCESSOR)/pie_link_c.S*)
PIE_S ?= $(wildcard dist/$(PROCESSOR)/pie.S.xz)

# (the archiver that belongs to a cross compiler; musl-gcc has none)
ifeq ($(origin AR),default)
AR := $(or $(if $(filter %-gcc,$(CC)),$(shell command -v $(patsubst %-gcc,%-ar,$(firstword $(filter %-gcc,$(CC)))))),ar)
endif
CFLAGS ?= -O2
OPTIONS := -std=gnu11 -Wall -Wextra -fPIC -Iinclude
HARDENING := -Wl,-z,relro -Wl,-z,now -Wl,-z,noexecstack

PREFIX ?= /usr/local
BINDIR ?= $(PREFIX)/bin
LIBDIR ?= $(PREFIX)/lib
INCLUDEDIR ?= $(PREFIX)/include
DATADIR ?= $(PREFIX)/share
MANDIR ?= $(DATADIR)/man
DOCDIR ?= $(DATADIR)/doc/pie
DYGRAPHS ?= /usr/share/javascript/dygraphs/dygraph.min.js

SHARED := libpie.so.$(VERSION)
LIBRARIES := $(addprefix $(BUILD)/,libpie_c.a $(if $(PIE_LINK_C_S),libpie_link.a) $(SHARED) $(SONAME) libpie.so)

all: libraries $(if $(PIE_S),program)
libraries: $(LIBRARIES)
shared: $(BUILD)/libpie.so $(BUILD)/$(SONAME)
program: $(BUILD)/pie
ifeq ($(PIE_S),)
$(BUILD)/pie.S: no-program
no-program:
	@echo "make: there is no program for $(PROCESSOR) in dist/; make libraries builds its libraries" >&2; exit 2
endif
ifeq ($(PIE_LINK_C_S),)
$(BUILD)/pie_link_c.S: no-links
no-links:
	@echo "make: there are no links for $(PROCESSOR) in dist/: links need 64-bit words; make libraries builds its libraries" >&2; exit 2
endif

$(BUILD):
	mkdir -p $@

# The assembly has no preprocessor lines. -g would have the assembler describe each of its lines.
assemble = $(CC) $(filter-out -g%,$(CFLAGS)) -x assembler -c -o $@
PLAIN := $(addprefix $(BUILD)/,pie_c.S pie_link_c.S pie.S)
$(PLAIN:.S=.o): %.o: %.S
	$(assemble) $<
# (plain FILE: prints assembly, which is compressed if the name ends in .xz)
plain := plain() { \
	case $$1 in \
	*.xz) if command -v xz > /dev/null; then xz -dc "$$1"; else python3 -c 'import lzma, sys; sys.stdout.buffer.write(lzma.open(sys.argv[1]).read())' "$$1"; fi ;; \
	*) cat "$$1" ;; \
	esac; }
$(BUILD)/pie_c.S: $(PIE_C_S)
$(BUILD)/pie_link_c.S: $(PIE_LINK_C_S)
$(BUILD)/pie.S: $(PIE_S)
$(PLAIN): | $(BUILD)
	@$(plain); plain $< > $@.part
	@mv $@.part $@

$(BUILD)/%.o: dist/%.c dist/runtime.h | $(BUILD)
	$(CC) $(CPPFLAGS) $(CFLAGS) $(OPTIONS) -c -o $@ $<
$(BUILD)/pie_arrays.o: bindings/python/native/pie_arrays.c bindings/python/native/pie_arrays.h include/pie.h | $(BUILD)
	$(CC) $(CPPFLAGS) $(CFLAGS) $(OPTIONS) -c -o $@ $<

$(BUILD)/libpie_c.a: $(BUILD)/pie_c.o
$(BUILD)/libpie_link.a: $(BUILD)/pie_link_c.o $(BUILD)/heap.o
$(BUILD)/%.a:
	rm -f $@
	$(AR) rcD $@ $^

# The functions of the headers are exported, as dist/abi.txt lists them, and nothing else; each of them has to be there.
functions = sed -n 's/^function \(.*\): .*/\1/p' $< $(if $(PIE_LINK_C_S),,| grep -v '^pie_link_')
$(BUILD)/libpie.map: dist/abi.txt | $(BUILD)
	$(functions) | sed 's/^/-Wl,--require-defined=/' > $(BUILD)/libpie.wanted
	(echo 'PIE_$(MAJOR) { global:' && $(functions) | sed 's/.*/    &;/' && echo '    local: *;' && echo '};') > $@
$(BUILD)/$(SHARED): $(addprefix $(BUILD)/,pie_c.o $(if $(PIE_LINK_C_S),pie_link_c.o heap.o) pie_arrays.o libpie.map)
	$(CC) $(CFLAGS) $(HARDENING) $(LDFLAGS) -shared -o $@ $(filter %.o,$^) -pthread @$(BUILD)/libpie.wanted -Wl,-soname,$(SONAME) \
		-Wl,--version-script=$(BUILD)/libpie.map -Wl,-Bsymbolic -Wl,--gc-sections -Wl,--as-needed -Wl,-z,defs
$(BUILD)/$(SONAME) $(BUILD)/libpie.so: $(BUILD)/$(SHARED)
	ln -sf $(SHARED) $@

$(BUILD)/pie: $(addprefix $(BUILD)/,pie.o heap.o process.o)
	$(CC) $(CFLAGS) $(HARDENING) $(LDFLAGS) -pie -Wl,--wrap=main -Wl,--wrap=open -o $@ $^ -pthread -lm

PAGE := web/juniperbowls.html
web: $(PAGE)
$(PAGE): $(filter-out $(PAGE),$(wildcard web/*)) dist/wasm/pie.wasm.xz dist/wasm/unxz.wasm.xz $(wildcard examples/*.history)
	DYGRAPHS='$(DYGRAPHS)' web/make.py $@

check: all
	CC='$(CC)' RUN='$(RUN)' dist/check.sh $(BUILD)

# What is installed where: MODE FILE PLACE
define PROGRAM
755 $(BUILD)/pie $(BINDIR)/pie
755 report/pie-report $(BINDIR)/pie-report
755 report/pie-metrics $(BINDIR)/pie-metrics
755 report/pie-extcap $(LIBDIR)/wireshark/extcap/pie-extcap
644 report/outputs.py $(DATADIR)/pie/outputs.py
644 report/alerts.yml $(DATADIR)/pie/alerts.yml
644 report/grafana.json $(DATADIR)/pie/grafana.json
644 man/pie.1 $(MANDIR)/man1/pie.1
644 man/pie-report.1 $(MANDIR)/man1/pie-report.1
644 man/pie-metrics.1 $(MANDIR)/man1/pie-metrics.1
644 man/pie-extcap.1 $(MANDIR)/man1/pie-extcap.1
644 completions/pie.bash $(DATADIR)/bash-completion/completions/pie
644 completions/_pie $(DATADIR)/zsh/site-functions/_pie
644 completions/pie.fish $(DATADIR)/fish/vendor_completions.d/pie.fish
endef
define LIBRARY
644 $(BUILD)/libpie_c.a $(LIBDIR)/libpie_c.a
644 $(BUILD)/$(SHARED) $(LIBDIR)/$(SHARED)
link $(SHARED) $(LIBDIR)/$(SONAME)
link $(SHARED) $(LIBDIR)/libpie.so
644 include/pie.h $(INCLUDEDIR)/pie.h
644 include/pie_text.h $(INCLUDEDIR)/pie_text.h
644 include/pie_flight.h $(INCLUDEDIR)/pie_flight.h
644 include/pie_follow.h $(INCLUDEDIR)/pie_follow.h
644 bindings/c/thread_sanitizer.txt $(DATADIR)/pie/thread_sanitizer.txt
644 docs/LIBRARY.md $(DOCDIR)/LIBRARY.md
644 $(BUILD)/pie_c.pc $(LIBDIR)/pkgconfig/pie_c.pc
644 $(BUILD)/pie.pc $(LIBDIR)/pkgconfig/pie.pc
644 dist/juniperbowls-config.cmake $(LIBDIR)/cmake/juniperbowls/juniperbowls-config.cmake
644 $(BUILD)/juniperbowls-config-version.cmake $(LIBDIR)/cmake/juniperbowls/juniperbowls-config-version.cmake
endef
define LINKS
644 $(BUILD)/libpie_link.a $(LIBDIR)/libpie_link.a
644 include/pie_link.h $(INCLUDEDIR)/pie_link.h
644 $(BUILD)/pie_link.pc $(LIBDIR)/pkgconfig/pie_link.pc
endef
define LICENCES
644 LICENSE-MIT $(DOCDIR)/LICENSE-MIT
644 LICENSE-APACHE $(DOCDIR)/LICENSE-APACHE
endef
# (the page, if its library is here)
ifneq ($(wildcard $(DYGRAPHS)),)
define PROGRAM +=

644 $(PAGE) $(DATADIR)/pie/juniperbowls.html
endef
endif
ifneq ($(PIE_LINK_C_S),)
define LIBRARY +=

$(LINKS)
endef
endif
export PROGRAM LIBRARY LICENCES
put = while read -r mode file place; do \
	case $$mode in \
	link) mkdir -p "$(DESTDIR)$${place%/*}" && ln -sf "$$file" "$(DESTDIR)$$place" ;; \
	*) install -D -m "$$mode" "$$file" "$(DESTDIR)$$place" ;; \
	esac || exit 1; \
	echo "$(DESTDIR)$$place"; \
	done

install: $(if $(PIE_S),install-program) install-library
install-program: program $(if $(wildcard $(DYGRAPHS)),web)
	@printf '%s\n' "$$PROGRAM" "$$LICENCES" | $(put)
# (both install the licences)
ifneq ($(filter install,$(MAKECMDGOALS)),)
install-library: | $(if $(PIE_S),install-program)
endif
install-library: libraries described
	@printf '%s\n' "$$LIBRARY" "$$LICENCES" | $(put)
uninstall:
	@printf '%s\n' "$$PROGRAM" "$$LIBRARY" "$$LICENCES" | while read -r mode file place; do rm -fv "$(DESTDIR)$$place"; done

# The pkg-config files name where the library is installed, so each installation writes them anew; pie is the shared library.
described: | $(BUILD)
	@for it in 'pie_c -lpie_c' 'pie_link -lpie_link -lpie_c -pthread' 'pie -lpie -pthread'; do \
		printf '%s\n' 'prefix=$(PREFIX)' 'libdir=$(patsubst $(PREFIX)/%,$${prefix}/%,$(LIBDIR))' \
			'includedir=$(patsubst $(PREFIX)/%,$${prefix}/%,$(INCLUDEDIR))' '' "Name: $${it%% *}" \
			'Description: PIE (RFC 8033) for a packet queue that its caller owns' 'Version: $(VERSION)' \
			"Libs: -L\$${libdir} $${it#* }" 'Cflags: -I$${includedir}' > $(BUILD)/$${it%% *}.pc; \
	done
	@printf '%s\n' 'set(PACKAGE_VERSION "$(VERSION)")' 'if(PACKAGE_FIND_VERSION VERSION_EQUAL PACKAGE_VERSION)' \
		'    set(PACKAGE_VERSION_EXACT TRUE)' 'endif()' 'if(NOT PACKAGE_FIND_VERSION VERSION_GREATER PACKAGE_VERSION)' \
		'    set(PACKAGE_VERSION_COMPATIBLE TRUE)' 'endif()' > $(BUILD)/juniperbowls-config-version.cmake

# (the same files make the same archive)
archive: all
	rm -rf $(BUILD)/archive
	$(MAKE) install DESTDIR=$(BUILD)/archive PREFIX=/juniperbowls-$(VERSION) > $(BUILD)/installed
	sed -i 's|^prefix=.*|prefix=$${pcfiledir}/../..|' $(BUILD)/archive/juniperbowls-$(VERSION)/lib/pkgconfig/*.pc
	tar --create --gzip --file $(BUILD)/juniperbowls-$(VERSION).tar.gz --sort=name --mtime='2000-01-01 00:00:00Z' --owner=0 --group=0 \
		--numeric-owner -C $(BUILD)/archive juniperbowls-$(VERSION)
	@echo $(BUILD)/juniperbowls-$(VERSION).tar.gz

# The crate for Rust as a package contains it: with the assembly for each processor as text, for builds outside this repository.
crate: | $(BUILD)
	rm -rf $(BUILD)/crate
	mkdir -p $(BUILD)/crate/assembly
	cp -r $(filter-out bindings/rust/target,$(wildcard bindings/rust/*)) $(BUILD)/crate
	@$(plain); put() { name=$${1##*/}; mkdir -p "$(BUILD)/crate/assembly/$$2" && plain "$$1" > "$(BUILD)/crate/assembly/$$2/$${name%.xz}"; }; \
	for it in $(wildcard dist/*/pie_c.S* dist/*/pie_link_c.S*); do folder=$${it%/*}; put "$$it" "$${folder##*/}" || exit 1; done; \
	for it in $(PIE_C_S) $(PIE_LINK_C_S); do put "$$it" $(PROCESSOR) || exit 1; done
	cp dist/heap.c dist/runtime.h $(BUILD)/crate/assembly

npm: | $(BUILD)
	rm -rf $(BUILD)/npm
	bindings/javascript/package.py $(BUILD)/npm

clean:
	rm -rf $(BUILD) $(PAGE)

.PHONY: all libraries shared program web npm check install install-program install-library uninstall described archive crate clean
.DELETE_ON_ERROR:
