# What the repository is used for. `rt` is the Rattle toolchain's command.
PREFIX = /usr/local
PROGRAM = crates/resolverd

# The program as `make prove-program` builds it.
BUILT = $(PROGRAM)/out/resolverd

# The words of the example: which zone, its file, and what is asked.
QUESTION = ask lab.example. "$(CURDIR)/examples/zones/lab.zone" x.lab.example. TXT

.PHONY: ask prove-program serve hints bench test turned install deb kit built

# Tells where the toolchain is not the one with which all of this was proved; the proofs are tried all the same.
kit:
	@test "$$(rt version)" = "$$(cat KIT)" || echo "note: this tree was proved with $$(cat KIT), and rt version prints $$(rt version)" >&2

# Answers one query, by the quick build: nothing is proved.
ask:
	@tools/ask $(QUESTION)

# Proves and builds the program, with all below it: for processors since 2009 (x86-64-v2), or with CPU=x86-64-v3 for
# those that have AVX2, since 2013.
prove-program: kit
	tools/prove --program $(CPU)

# Says where there is no proved program yet.
built:
	@test -x "$(BUILT)" || { echo "there is no proved program: make prove-program builds it" >&2; exit 2; }

# Runs the proved program as a resolver for this machine alone, at 127.0.0.1 port 5300, until it is stopped:
# `dig @127.0.0.1 -p 5300 example.org` asks it.
serve: built
	cd examples/serve && "$(CURDIR)/$(BUILT)" serve resolverd.conf

# Writes the root's addresses of a root hints file, HINTS=FILE or Debian's, into the files that are shipped.
hints:
	tools/hints "$(or $(HINTS),/usr/share/dns/root.hints)" examples/serve/resolverd.conf examples/dnsdist/one.conf \
	    examples/dnsdist/two.conf

# How long the libraries' calls take, the dearest steps that strangers can bring about, and the server of the program:
# docs/TIMES.md has the figures of one machine.
bench: built
	cd crates/bench && rt run -- measure
	cd crates/bench && rt run -- hostile
	tools/pace

# The gate: every proof, every edit that must fail, every test and every run, and with the proved program the examples
# and the tests that are texts (tools/examples, tools/plays, tools/commands), runs of the server (tools/serving,
# tools/sockets, tools/metrics, tools/managed, and tools/fronted where dnsdist is installed) and of what an operator
# asks (tools/operator); of the other edits, that they can still be applied.
test: kit
	tools/layers --check
	tools/definitions
	tools/names
	tools/glossary
	tools/references
	tools/proved --check
	tools/heads
	tools/prose
	tools/turned --texts
	tools/prove
	tools/examples
	tools/plays
	tools/commands
	tools/serving
	tools/sockets
	tools/metrics
	tools/managed
	tools/operator
	tools/fronted

# Proves the libraries, and tries the edits of single functions, which the gate leaves out: of all crates, or with
# SINCE=COMMIT of those that differ from that commit's.
turned:
	$(if $(SINCE),tools/turned --since "$(SINCE)",tools/prove --turned)

# Puts the program that was built to $(PREFIX)/bin, and its manual pages beside it. It builds nothing.
install: built
	install -d "$(DESTDIR)$(PREFIX)/bin"
	install -m 755 "$(BUILT)" "$(DESTDIR)$(PREFIX)/bin/resolverd"
	install -d "$(DESTDIR)$(PREFIX)/share/man/man8"
	install -m 644 man/resolverd.8 "$(DESTDIR)$(PREFIX)/share/man/man8/resolverd.8"
	install -d "$(DESTDIR)$(PREFIX)/share/man/man5"
	install -m 644 man/resolverd.conf.5 "$(DESTDIR)$(PREFIX)/share/man/man5/resolverd.conf.5"

# Makes a Debian package of the program that was built, in crates/resolverd/out. It builds no program, and refuses one that
# is older than its sources.
deb: built
	tools/deb
