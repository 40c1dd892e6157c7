# For users: `make` builds the proved program, `make run` runs an example, `make examples` runs all of them and compares
# what they print, `make test` is the gate.
PREFIX ?= /usr/local

all: bin/bernoulli

bin/bernoulli: $(shell find crates -path '*/out' -prune -o \( -name '*.rt' -o -name '*.antt' \) -print) crates.txt
	@echo "proving and building; on a fresh machine this takes some minutes"
	@mkdir -p bin crates/bernoulli/out
	@rm -f crates/bernoulli/out/bernoulli
	@cd crates/bernoulli && { rt run >out/build.log 2>&1 || true; } && { test -x out/bernoulli || { cat out/build.log; exit 1; }; }
	cp crates/bernoulli/out/bernoulli bin/bernoulli

.PHONY: all run examples test install clean

run: bin/bernoulli
	cd examples/product && ../../bin/bernoulli run job.txt 1

examples: bin/bernoulli
	sh examples/check.sh

test:
	rt ci

install: bin/bernoulli
	mkdir -p $(DESTDIR)$(PREFIX)/bin
	cp bin/bernoulli $(DESTDIR)$(PREFIX)/bin/bernoulli

clean:
	rm -rf bin
