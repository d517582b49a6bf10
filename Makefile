# `make demo` shows the example; `make test` is the gate; `make bench` measures; `make compare` holds it against the Rust.
.PHONY: demo demo-c test bench compare compare-build

demo: crates/tuchovai/out/tuchovai
	@echo '== the script of examples/bar3, as its scanner saw it'
	@cat examples/bar3/bar3.table
	@echo
	@echo '== tuchovai pack examples/bar3/bar3.table target/bar3.card'
	@mkdir -p target
	@crates/tuchovai/out/tuchovai pack examples/bar3/bar3.table target/bar3.card
	@echo
	@echo '== tuchovai link target/bar3.card'
	@crates/tuchovai/out/tuchovai link target/bar3.card
	@echo
	@echo '== a week later speeds.js awaits, and bar3.js still requires it: tuchovai link examples/bar3/bar3-waits.table'
	@crates/tuchovai/out/tuchovai link examples/bar3/bar3-waits.table
	@echo
	@echo '== the await row says why that require is refused: it would have to wait for the await of limits.js, module 6'
	@crates/tuchovai/out/tuchovai link examples/bar3/bar3-waits.table | grep '^await'

# With ROLLDOWN the passes are measured beside the Rust's too.
bench: crates/spread_bench/out/spread_bench $(if $(ROLLDOWN),compare-build)
	@crates/spread_bench/out/spread_bench time
	@$(if $(ROLLDOWN),compare/target/release/compare bench $(GRAPHS))

crates/spread_bench/out/spread_bench: crates.txt $(shell find crates/spread crates/spread_bench crates/faults -name '*.rt' -o -name '*.antt')
	cd crates/spread_bench && rt run > /dev/null
	@touch $@

crates/tuchovai/out/tuchovai: crates.txt $(shell find crates -name '*.rt' -o -name '*.antt')
	cd crates/tuchovai && rt run -- --version > /dev/null
	@touch $@

# The library for C and Rust. The kit's C code is linked beside it.
RATTLE_LIB = $(abspath $(dir $(shell rt doc))c)

crates/tuchovai_c/out/libtuchovai_c.a: crates.txt $(shell find crates -name '*.rt' -o -name '*.antt')
	cd crates/tuchovai_c && rt lib > /dev/null
	@touch $@

target/bin/marks: examples/c/marks.c include/tuchovai.h crates/tuchovai_c/out/libtuchovai_c.a
	@mkdir -p target/bin
	$(CC) -std=c11 -Wall -Wextra -O2 -Iinclude $< crates/tuchovai_c/out/libtuchovai_c.a $(RATTLE_LIB)/liblibc_c.a -o $@

demo-c: target/bin/marks
	target/bin/marks examples/bar3/bar3.card

# Held against the Rust: ROLLDOWN is the path of the `src` folder of rolldown 1.2.15, whose files are compiled unchanged.
# GRAPHS are tables of real graphs, if there are any at hand; SCALE multiplies the random part.
SCALE ?= 1
compare-build: crates/tuchovai_c/out/libtuchovai_c.a
	cd compare && ROLLDOWN='$(abspath $(ROLLDOWN))' TUCHOVAI_LIB='$(abspath crates/tuchovai_c/out)' RATTLE_LIB='$(RATTLE_LIB)' \
	cargo build --release --offline --quiet

compare: compare-build
	compare/target/release/compare all $(SCALE)
	compare/target/release/compare interop $(SCALE)
	compare/target/release/compare images $(SCALE)
	compare/target/release/compare graphs $(GRAPHS)

# The copies of the example that programs are run on are the example.
test:
	cmp examples/bar3/bar3.table crates/tuchovai/data/bar3.table
	cmp examples/bar3/bar3.table crates/command_runs/data/bar3.table
	cmp examples/bar3/bar3-waits.table crates/link_command_runs/data/bar3-waits.table
	cmp examples/bar3/bar3.card crates/command_runs/data/bar3.card
	tools/gate
