# make demo               proves and builds `hilbert`, and runs it on two examples
# make test               the merge gate: `rt ci`, then examples, guide and conformance corpus over the built programs
# make pictures           the pictures of examples/ and docs/, anew from the files that the programs wrote
# make install PREFIX=DIR the programs under their own names and their man pages below DIR, as the gate built them
PREFIX ?= /usr/local
EXAMPLES ?= unit-vectors magic-squares
SOURCES := $(shell find crates -path '*/out' -prune -o -type f -print) crates.txt

.PHONY: demo test pictures install clean

demo: bin/hilbert
	@for example in $(EXAMPLES); do \
		echo "$$example: P.mat" && cat examples/$$example/P.mat && \
		rm -rf bin/demo && mkdir -p bin/demo && cp examples/$$example/P.mat bin/demo && \
		echo "$$example: hilbert P" && (cd bin/demo && ../hilbert P) && \
		echo "$$example: P.hil" && cat bin/demo/P.hil || exit 1; \
	done

# `rt run` builds a program only once every crate below it is proved, and runs it. Here it has no words, so it ends with
# the status of wrong words: whether it was built is asked apart.
bin/hilbert: $(SOURCES)
	rm -f crates/hilbert_prog/out/hilbert_prog
	cd crates/hilbert_prog && rt run -- > /dev/null || test -x out/hilbert_prog
	mkdir -p bin && cp crates/hilbert_prog/out/hilbert_prog bin/hilbert

test:
	.ci/run

pictures:
	scripts/draw-pictures

install:
	scripts/install-programs $(PREFIX)/bin
	mkdir -p $(PREFIX)/share/man/man1
	cp man/*.1 $(PREFIX)/share/man/man1

clean:
	rm -rf bin crates/*/out
