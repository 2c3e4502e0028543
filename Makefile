# make ocdb   builds the program where it isn't built, and says where it lies
# make demo   runs each script of examples/ on a container of its own
# make definitions   writes docs/DEFINITIONS.md anew from the definitions and their sentences

program := crates/ocdb/out/ocdb
sources := $(shell find crates/*/src crates/*/specs crates/*/proofs -name '*.rt' -o -name '*.antt')

.PHONY: ocdb demo definitions

ocdb: $(program)
	@echo "The program is $(program)"

# `rt run` proves each crate, builds the program and runs it, here on no script. `rt ci` leaves the
# program too, and then nothing is built here. The program is touched since rt leaves it as it is
# where a source is newer but says the same.
$(program): crates.txt $(sources)
	@command -v rt >/dev/null || { echo "make: rt, which proves and builds ocdb, is not on the PATH" >&2; exit 1; }
	@echo "Proving and building ocdb, as build/ocdb.log tells: the first time it can take ten minutes" >&2
	@mkdir -p build; room=$$(mktemp -d); trap 'rm -rf "$$room"' EXIT; trap 'exit 1' HUP INT TERM; \
	(cd crates/ocdb && rt run -- "$$room/first.oc") </dev/null >build/ocdb.log 2>&1 || \
	{ tail -n 20 build/ocdb.log >&2; exit 1; }
	@touch $@

demo: ocdb
	@room=$$(mktemp -d); trap 'rm -rf "$$room"' EXIT; trap 'exit 1' HUP INT TERM; \
	for script in examples/*.script; do \
	    name=$$(basename "$$script" .script); \
	    printf '\n==== %s\n\n' "$$script"; cat "$$script"; \
	    printf '\n---- ocdb %s.oc <%s\n\n' "$$name" "$$script"; \
	    status=0; $(program) "$$room/$$name.oc" <"$$script" || status=$$?; \
	    printf '\n---- exit code %s\n' "$$status"; \
	done

definitions:
	@sh checks/lib/definitions.sh >docs/DEFINITIONS.new && mv docs/DEFINITIONS.new docs/DEFINITIONS.md || { rm -f docs/DEFINITIONS.new; exit 1; }
