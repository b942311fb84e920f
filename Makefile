# make              prove and build all
# make test         the whole test; its last line is 'N passed, 0 failed' only if all of it passed
# make demo         cut the sample door and say what came out
# make compare      compare every operation with the Rust that is ported, two million calls each
# make bench        time every operation beside the Rust; with KEEP=1 the tables go into docs/BENCH.md too
# make instructions count the instructions of each operation, on any processor
# make vectors      make the stored answers of the Rust anew, which `replay` replays
# make fmt          lay out every Rattle file
# make clean        remove what was built

KIT := rattle-kit-13f logic dac8208d650f15bf

.PHONY: all test demo compare bench instructions vectors fmt clean kit

all: kit
	@rt all check
	@host/build

test: kit
	@sh host/test

demo: kit
	@host/build split
	@sh samples/demo

compare: all
	@host/compare/run
	@host/compare/check

bench: all
	@host/bench/run $(if $(KEEP),--keep)

instructions: all
	@host/instructions/run

vectors: all
	@host/compare/vectors

fmt: kit
	@for crate in crates/*/; do (cd "$$crate" && rt fmt) || exit 1; done

clean:
	@rm -rf target crates/*/out

kit:
	@command -v rt >/dev/null || { \
	    echo 'tallyspool: the command rt is not on the PATH.' >&2; \
	    echo 'tallyspool: install the Rattle kit "$(KIT)" and put its folder bin/ on the PATH.' >&2; \
	    exit 1; }
	@found=$$(rt version 2>/dev/null); test "$$found" = '$(KIT)' || { \
	    echo "tallyspool: this is another Rattle kit than the one that the proofs are pinned to." >&2; \
	    echo 'tallyspool: wanted "$(KIT)" (KIT in the Makefile)' >&2; \
	    echo "tallyspool: found  \"$$found\" (rt version)" >&2; \
	    exit 1; }
