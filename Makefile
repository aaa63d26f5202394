# make test                                      runs every test that needs no proof, in some minutes; rt ci proves all of it
# make install [PREFIX=/usr/local] [DESTDIR=..]   installs the proved program, the node, the clients, a man page, completion for
#                                                 bash, and what chaincode is built with. Nothing is begun, and in /etc only the
#                                                 units of systemd are written
# make users                                      makes the users that the units run as, with their folders below /var/lib
#
# Below PREFIX/lib/regtuma lies what is needed of the repository, each file where it has it. ./ledger dist packs the same.
PREFIX ?= /usr/local
CLANG ?= clang
LEDGER ?= crates/ledger_cli/out/ledger_cli
LIB = $(DESTDIR)$(PREFIX)/lib/regtuma
BIN = $(DESTDIR)$(PREFIX)/bin
UNITS = $(DESTDIR)/etc/systemd/system
COMPLETION = $(DESTDIR)$(PREFIX)/share/bash-completion/completions/ledger
MAN = $(DESTDIR)$(PREFIX)/share/man/man1/ledger.1

FILES = VERSION LICENSE Makefile CHANGELOG.md CONTRIBUTING.md README.md bench/README.md crates/README.md docs/page.png \
	$(wildcard docs/*.md docs/decisions/*.md python/*.py node/*.example node/*.cfg node/*.c node/regtuma/*.py node/regtuma/*.js node/regtuma/*.json node/clients/*.mjs \
	node/systemd/* examples/node/* examples/chaincode/*.h examples/chaincode/*.c examples/chaincode/*.wat \
	examples/chaincode/*.wasm examples/chaincode/Cargo.toml examples/chaincode/*/Cargo.toml examples/chaincode/*/src/*.rs \
	examples/chaincode/*/tests/*.rs) examples/page/template.html crates/cli_words/src/table.rt
SCRIPTS = ledger examples/chaincode/build.sh node/certs.sh node/change.py $(wildcard node/bin/*)

.PHONY: install users test
install:
	@test -x $(LEDGER) || { echo "there is no proved program $(LEDGER): ./ledger prove makes it" >&2; exit 1; }
	@for file in $(FILES); do install -D -m 644 $$file $(LIB)/$$file || exit 1; done
	@for file in $(SCRIPTS); do install -D -m 755 $$file $(LIB)/$$file || exit 1; done
	@install -m 755 $(LEDGER) $(LIB)/ledger_cli
	@$(CLANG) -shared -fPIC -O2 -Wall -Wextra -Werror -o $(LIB)/node/certificates.so node/certificates.c || \
		{ echo "node/certificates.c is not compiled: install clang, or name another compiler by CLANG=" >&2; exit 1; }
	@chmod 644 $(LIB)/node/certificates.so
	@install -d $(BIN) $(UNITS)
	@ln -sfn ../lib/regtuma/ledger $(BIN)/ledger
	@ln -sfn ../lib/regtuma/node/certs.sh $(BIN)/regtuma-certs
	@ln -sfn ../lib/regtuma/node/change.py $(BIN)/regtuma-change
	@for name in regtuma regtuma-audit regtuma-log regtuma-node; do ln -sfn ../lib/regtuma/node/bin/$$name $(BIN)/$$name || exit 1; done
	@for unit in node/systemd/*; do sed 's|/usr/local|$(PREFIX)|g' $$unit | install -m 644 /dev/stdin $(UNITS)/$$(basename $$unit) || exit 1; done
	@install -d $(dir $(COMPLETION)) $(dir $(MAN))
	@./ledger completion bash > $(COMPLETION) && ./ledger man > $(MAN) && chmod 644 $(COMPLETION) $(MAN)
	@echo "installed below $(DESTDIR)$(PREFIX)"

users:
	@for name in regtuma regtuma-etcd regtuma-proxy; do \
		getent passwd $$name > /dev/null || \
			useradd --system --create-home --home-dir /var/lib/$$name --skel /dev/null --shell /usr/sbin/nologin $$name || \
			exit 1; \
	done

test:
	@test/run
