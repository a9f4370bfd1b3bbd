# Puts the program and the library in place with their manual pages, tools and documents, and takes them away: make install PREFIX=/usr/local, make uninstall PREFIX=/usr/local.
# It works in what `make dist` makes too, where the program is `modem` itself and the library is in lib/ and include/.
PREFIX ?= /usr/local
# Of the library: x86_64, or aarch64 by the system's cross compiler.
MACHINE ?= x86_64
ROOT = $(DESTDIR)$(PREFIX)
BIN = $(ROOT)/bin/modem
PROVED = $(ROOT)/lib/modem/modem
PAGE = $(ROOT)/share/man/man1/modem.1
LIBRARY_PAGE = $(ROOT)/share/man/man3/libmodem.3
LIB = $(ROOT)/lib
SHARE = $(ROOT)/share/modem
DOCS = $(ROOT)/share/doc/modem
PROGRAM = $(if $(wildcard crates.txt),crates/modem_main/out/modem_main,modem)
MADE_LIBRARY = $(if $(wildcard crates.txt),out/library/$(MACHINE),lib)
TOOLS = add_noise bits common.py constellation decibel differ forms.sh go_on hint hiss ladder losses page page.html pcap pipes places samples seed shrink sweep tally throughput trellis waterfall wrapper
PARTS = common.py forms.sh page.html
WIRESHARK = lapm.lua colorfilters
VERSION = $(shell cat VERSION)
NAME = modem-$(VERSION)-x86_64-linux
LIBRARY_NAME = libmodem-$(VERSION)-$(MACHINE)-linux

# When the text was made that is packed: so the same text makes the same archive, octet for octet.
MADE = $(shell git log -1 --format=%ct 2>/dev/null || date +%s)

# Pages for who has no repository: parts that are marked as the repository's go, and what is marked as the archive's stands, or what is marked as installed.
OWN = sed -i -e '/^<!-- repository -->$$/,/^<!-- end -->$$/d' -e '/^<!-- $(1)$$/,/^end -->$$/d' -e '/^<!-- $(2)$$/d' -e '/^end -->$$/d'

# Links to what isn't in place, as the crates, leave their words.
UNLINKED = sed -i -E 's,\[([^]]*)\]\((\.\./)?(crates|library|python)/[^)]*\),\1,g; s,``::,::,g'

.PHONY: all proved library install uninstall dist dist-library deb pictures refused check

all: proved

# The program, proved and built, on all processors (MODEM_JOBS sets another number); what an interrupted call has proved is kept. In the archive nothing is left to do.
proved:
	if [ -f crates.txt ]; then tools/prove_program; fi

# The library for C, proved and built: libmodem.a, libmodem.so, modem.h and modem.pc in out/library.
library:
	if [ -f crates.txt ]; then PREFIX="$(PREFIX)" tools/make_library $(MACHINE); fi

# In the path stands the wrapper, for pipes and hints; the tools find the program itself beside their folder.
install: proved library
	install -D $(PROGRAM) "$(PROVED)"
	install -D -m 644 library/modem.h "$(ROOT)/include/modem.h"
	install -D -m 644 $(MADE_LIBRARY)/libmodem.a "$(LIB)/libmodem.a"
	install -m 644 $(MADE_LIBRARY)/libmodem.so.$(VERSION) "$(LIB)"
	ln -sfn libmodem.so.$(VERSION) "$(LIB)/libmodem.so.1"
	ln -sfn libmodem.so.1 "$(LIB)/libmodem.so"
	install -d "$(LIB)/pkgconfig"
	sed -e "s,@PREFIX@,$(PREFIX),; s,@VERSION@,$(VERSION)," library/modem.pc.in >"$(LIB)/pkgconfig/modem.pc"
	install -D -m 644 docs/libmodem.3 "$(LIBRARY_PAGE)"
	install -d "$(dir $(BIN))"
	ln -sfn ../share/modem/tools/wrapper "$(BIN)"
	install -D -m 644 docs/modem.1 "$(PAGE)"
	install -d "$(SHARE)/tools/wireshark" "$(DOCS)/docs/pictures"
	cd tools && install $(filter-out $(PARTS),$(TOOLS)) "$(abspath $(SHARE))/tools"
	cd tools && install -m 644 $(PARTS) "$(abspath $(SHARE))/tools"
	cd tools/wireshark && install -m 644 $(WIRESHARK) "$(abspath $(SHARE))/tools/wireshark"
	cp -r example "$(SHARE)"
	ln -sfn ../../lib/modem/modem "$(SHARE)/modem"
	install -m 644 VERSION "$(SHARE)"
	install -D -m 644 python/modem.py "$(SHARE)/python/modem.py"
	install -m 644 python/pyproject.toml "$(SHARE)/python"
	install -m 644 README.md CHANGELOG.md CONTRIBUTING.md VERSION "$(DOCS)"
	install -m 644 docs/*.md docs/modem.txt docs/modem.ipynb "$(DOCS)/docs"
	install -m 644 docs/pictures/* "$(DOCS)/docs/pictures"
	$(call OWN,archive,installed) "$(DOCS)"/*.md
	$(UNLINKED) "$(DOCS)"/*.md "$(DOCS)"/docs/*.md

uninstall:
	rm -f "$(BIN)" "$(PAGE)" "$(LIBRARY_PAGE)" "$(ROOT)/include/modem.h" "$(LIB)"/libmodem.* "$(LIB)/pkgconfig/modem.pc"
	rm -rf "$(SHARE)" "$(DOCS)" "$(dir $(PROVED))"

# The built program with all that its users need, with the code and the definitions that the pages name, in out/, and the sums of the program, of the library
# and of the archive. The same text, built again by the same kit, has the same sums.
dist: proved library
	rm -rf out/$(NAME) && mkdir -p out/$(NAME)/lib out/$(NAME)/include
	cp -r CHANGELOG.md CONTRIBUTING.md Makefile README.md VERSION docs example library python out/$(NAME)
	cp -P $(MADE_LIBRARY)/libmodem.* out/$(NAME)/lib
	cp library/modem.h out/$(NAME)/include
	$(call OWN,installed,archive) out/$(NAME)/*.md
	for it in crates/*/src crates/*/specs; do mkdir -p "out/$(NAME)/$$it" && cp -r "$$it" "out/$(NAME)/$$(dirname "$$it")" || exit 1; done
	install $(PROGRAM) out/$(NAME)/modem
	cd out/$(NAME) && sha256sum modem lib/libmodem.a lib/libmodem.so.$(VERSION)
	mkdir out/$(NAME)/tools && cd tools && cp -r $(TOOLS) browser.py check pictures try_notebook try_page wireshark ../out/$(NAME)/tools
	cd out && tar --sort=name --mode=u+rw,go=rX --owner=0 --group=0 --numeric-owner --mtime="@$(MADE)" -c $(NAME) | gzip -n >$(NAME).tar.gz
	cd out && rm -rf $(NAME) && sha256sum $(NAME).tar.gz >$(NAME).tar.gz.sha256 && cat $(NAME).tar.gz.sha256

# The library alone, for a machine for which the kit builds no program: make dist-library MACHINE=aarch64.
dist-library: library
	rm -rf out/$(LIBRARY_NAME) && mkdir -p out/$(LIBRARY_NAME)/lib out/$(LIBRARY_NAME)/include
	cp -r VERSION example/c python docs/libmodem.3 docs/LIBRARY.md out/$(LIBRARY_NAME)
	cp -P $(MADE_LIBRARY)/libmodem.* out/$(LIBRARY_NAME)/lib
	cp library/modem.h out/$(LIBRARY_NAME)/include
	cd out && tar --sort=name --mode=u+rw,go=rX --owner=0 --group=0 --numeric-owner --mtime="@$(MADE)" -c $(LIBRARY_NAME) | gzip -n >$(LIBRARY_NAME).tar.gz
	cd out && rm -rf $(LIBRARY_NAME) && sha256sum $(LIBRARY_NAME).tar.gz >$(LIBRARY_NAME).tar.gz.sha256 && cat $(LIBRARY_NAME).tar.gz.sha256

# A package for Debian and its kin, in out/: program, library, header, manual pages, tools, examples and pages.
deb:
	rm -rf out/deb && $(MAKE) -s install DESTDIR="$(CURDIR)/out/deb" PREFIX=/usr
	gzip -9n out/deb/usr/share/man/man1/modem.1 out/deb/usr/share/man/man3/libmodem.3
	gzip -9nc CHANGELOG.md >out/deb/usr/share/doc/modem/changelog.gz
	mkdir out/deb/DEBIAN
	echo 'activate-noawait ldconfig' >out/deb/DEBIAN/triggers
	echo 'libmodem 1 modem (>= 1.0.2)' >out/deb/DEBIAN/shlibs
	printf '%s\n' 'Package: modem' 'Version: $(VERSION)' 'Architecture: amd64' 'Section: comm' 'Priority: optional' 'Depends: libc6 (>= 2.34)' \
		'Recommends: python3 (>= 3.9)' 'Suggests: parallel' "Installed-Size: $$(du -sk out/deb/usr | cut -f1)" 'Maintainer: the owner of this project <owner@example.invalid>' \
		'Description: data mode of an error-correcting telephone modem pair, proved' \
		' V.42 LAPM over the trellis-coded 9600 bit/s signal of V.32, symbol by symbol:' \
		' it decodes recordings, explains captures, and runs two modems over a line that' \
		' a script describes. With it comes libmodem, the same parts for C and Python.' >out/deb/DEBIAN/control
	cd out && SOURCE_DATE_EPOCH=$(MADE) dpkg-deb --root-owner-group --build deb modem_$(VERSION)_amd64.deb && rm -rf deb

# The pictures of README.md and docs/TEACHING.md, and the manual page as text, made anew.
pictures:
	tools/pictures docs/pictures
	if command -v chromium >/dev/null; then tools/try_page shot docs/pictures/page.png; fi
	if command -v pngquant >/dev/null; then pngquant --force --output docs/pictures/page.png 48 docs/pictures/page.png; fi
	MANWIDTH=100 man -l docs/modem.1 | col -bx > docs/modem.txt

# The table of docs/REFUSED.md: wrong bodies, tried anew. It needs the kit, and takes some three minutes on four processors.
refused: proved
	bench/refused

# The examples of the pages and of the manual page, and the pictures, against what the program does.
check:
	tools/check
