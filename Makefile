# Commands for a machine that has the Rattle kit's `rt` on the path:
#   make build        proves all crates and builds the program, which then stands as crates/canvas/out/canvas
#   make coast        builds it where that is needed, and paints examples/coast into coast.ppm
#   make first-map    the same for examples/first-map
#   make island       the same for examples/island, into island.ppm and town.ppm
#   make examples     the same for all examples, and compares them with what they must be
#   make test         passes all proofs, edits that must be refused, tests, programs and their ends, examples
#                     and documents

PROGRAM = crates/canvas/out/canvas
SOURCES := crates.txt $(shell find crates -name out -prune -o \( -name '*.rt' -o -name '*.antt' \) -print)

# How many crates are proved side by side; `rt` chooses where nothing is said.
JOBS =

.PHONY: build coast first-map island examples test

build: $(PROGRAM)

# `rt run` builds the program only to run it, so it paints a small picture of its own.
$(PROGRAM): $(SOURCES)
	rt all check $(if $(JOBS),--jobs $(JOBS))
	cd crates/canvas && rt run -- quick data/sq.csv out/sq.ppm 4 4 0 0 4 4 ff0000
	touch $@

coast first-map island: $(PROGRAM)
	cd examples/$@ && while read -r words; do ../../$(PROGRAM) $$words || exit 1; done <command
	mv examples/$@/*.ppm .

examples: $(PROGRAM)
	tools/run-examples $(PROGRAM)

test:
	.ci/run
