# make builds, make check runs the gate; make install and make uninstall take PREFIX and DESTDIR.
PREFIX = /usr/local
to = $(DESTDIR)$(PREFIX)
below = $(if $(DESTDIR),.$(PREFIX)/)
version = $(shell bin/cartheron --version | sed 's/^[^0-9]*//')
files = target/cartheron:bin/cartheron include/cartheron.h:include/cartheron.h \
	target/staticlib/libcommission.a:lib/libcartheron.a cartheron.pc.in:lib/pkgconfig/cartheron.pc \
	$(foreach n,1 3 5,man/cartheron.$n:share/man/man$n/cartheron.$n) \
	completion/cartheron.bash:share/bash-completion/completions/cartheron

all:
	bin/cartheron --version
check:
	.ci/run
install: all
	for f in $(files); do install -D -m 644 "$${f%:*}" "$(to)/$${f#*:}" || exit; done
	chmod 755 "$(to)/bin/cartheron"
	sed -i -e 's|@PREFIX@|$(PREFIX)|' -e 's|@VERSION@|$(version)|' "$(to)/lib/pkgconfig/cartheron.pc"
uninstall: # and the folders that are empty then, below DESTDIR or else below PREFIX
	cd "$(or $(DESTDIR),$(PREFIX))" && for f in $(files); do \
	    f="$(below)$${f#*:}"; rm -f "$$f" || exit; rmdir -p "$${f%/*}" 2>/dev/null || true; done
.PHONY: all check install uninstall
