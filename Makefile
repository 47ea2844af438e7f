# `make try` shows the example without proofs; `make` proves, builds and runs it; `make check` is the gate.
PREFIX = /usr/local
PROGRAM = crates/welgutan/out/welgutan
EXAMPLE = enforce data/peers.toml data/sessions.tape data/packets.pcap
BIN = $(DESTDIR)$(PREFIX)/bin
MAN = $(DESTDIR)$(PREFIX)/share/man/man1
SHARE = $(DESTDIR)$(PREFIX)/share/welgutan
DOC = $(DESTDIR)$(PREFIX)/share/doc/welgutan
TOOLS = welgutan-nft welgutan-verdicts
# what tools/nft.py imports
PACKAGE = $(wildcard tools/welgutan/*.py)

all:
	cd crates/welgutan && rt run -- $(EXAMPLE)

try:
	cd crates/welgutan && rt try -- $(EXAMPLE)

check:
	.ci/run

install:
	@test -x $(PROGRAM) || { echo "$(PROGRAM) isn't there: run make first, with the kit's rt on the path" >&2; exit 1; }
	install -D -m 755 $(PROGRAM) $(BIN)/welgutan
	install -d -m 755 $(SHARE)/tools/welgutan $(SHARE)/units $(SHARE)/grafana $(MAN) $(DOC)/docs
	install -m 755 tools/verdicts.py tools/nft.py $(SHARE)/tools
	install -m 644 tools/captures.py $(SHARE)/tools
	install -m 644 $(PACKAGE) $(SHARE)/tools/welgutan
	install -m 644 $(wildcard tools/units/*.service) $(SHARE)/units
	install -m 644 tools/grafana/welgutan.json $(SHARE)/grafana
	ln -sf ../share/welgutan/tools/verdicts.py $(BIN)/welgutan-verdicts
	ln -sf ../share/welgutan/tools/nft.py $(BIN)/welgutan-nft
	tools/man.py $(MAN)
	install -m 644 README.md CHANGELOG.md SECURITY.md $(DOC)
	install -m 644 $(wildcard docs/*.md docs/*.svg) $(DOC)/docs

uninstall:
	rm -f $(patsubst %,$(BIN)/%,welgutan $(TOOLS)) $(patsubst %,$(MAN)/%.1,welgutan $(TOOLS))
	rm -rf $(SHARE) $(DOC)

.PHONY: all try check install uninstall
