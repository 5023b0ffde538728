# make                  builds the program as out/overlord, which the script ./overlord runs
# make test             the gate: every proof, every edit that must fail, every test, and the program's own tests
# make soak             the tests that draw what they do, for hours
# make bench            the program against the same work without it, a large load (beside the plain program BENCH_PEER, where one is named),
#                       and how the work of a line grows with the tables
# make install PREFIX=  puts the program itself, which needs nothing of this folder, at PREFIX/bin/overlord
PREFIX ?= /usr/local

.PHONY: build test soak bench install

build:
	@tools/build

test:
	@.ci/run

soak: build
	@tests/soak

bench: build
	@tools/bench
	@tools/bench_load
	@tools/growth

install: build
	install -d "$(DESTDIR)$(PREFIX)/bin"
	install -m 755 out/overlord "$(DESTDIR)$(PREFIX)/bin/overlord"
