# The library for C programs.
#   make                   the archive; proving it takes minutes the first time
#   make install           puts header, archive, lutsamik.pc, the command, its man page and its completion for bash
#                          below PREFIX, and that below DESTDIR
#   make host              builds the example, as target/host
# LUTSAMIK_ARCHIVE=FILE has another archive taken as it is (tests/archive).
PREFIX = /usr/local
DESTDIR =
CFLAGS = -O2 -Wall -Wextra

prefix := $(abspath $(PREFIX))
root := $(DESTDIR)$(prefix)
version := $(shell sed -n 's/^.define LUTSAMIK_VERSION "\(.*\)"/\1/p' include/lutsamik.h)

.PHONY: archive install host

archive:
	@tests/archive

# The command is compiled for itself, so that this does not meet a ./lutsamik that is being built.
install:
	archive=$$(tests/archive) && \
	install -d "$(root)/include" "$(root)/lib/pkgconfig" "$(root)/bin" "$(root)/share/man/man1" && \
	install -d "$(root)/share/bash-completion/completions" && \
	made=$$(mktemp -d) && \
	rustc --edition 2021 -O -D warnings -C "link-arg=$$archive" -o "$$made/lutsamik" tool/main.rs && \
	install -m 755 "$$made/lutsamik" "$(root)/bin" && \
	rm -r "$$made" && \
	tool/man >"$(root)/share/man/man1/lutsamik.1" && \
	install -m 644 tool/completion "$(root)/share/bash-completion/completions/lutsamik" && \
	install -m 644 include/lutsamik.h "$(root)/include" && \
	install -m 644 "$$archive" "$(root)/lib/liblutsamik.a" && \
	sed 's|@PREFIX@|$(prefix)|; s|@VERSION@|$(version)|' lutsamik.pc.in >"$(root)/lib/pkgconfig/lutsamik.pc"

host:
	archive=$$(tests/archive) && \
	mkdir -p target && \
	$(CC) $(CFLAGS) -Iinclude -o target/host examples/host.c "$$archive"
