# `make run` does the main job on examples that ship, `make test` proves and tests everything. `make lib` writes the library for C, `make bench` measures it.
.PHONY: run test lib bench

run:
	@tests/need-toolchain
	@tests/program families
	@tests/shown 'families pack < examples/bench.txt > target/bench.sheet'
	@tests/shown 'families listing 3 12 target/bench.sheet'
	@tests/shown 'families tree 3 target/bench.sheet'
	@tests/shown 'families page 3 target/bench.sheet'
	@tests/shown 'families from-dump examples/screen.dump > target/screen.sheet'
	@tests/shown 'families listing 3 6 target/screen.sheet'

test:
	@tests/run

lib:
	@tests/library
	@echo 'target/lib/libfamilies.a, with the header include/families.h'

bench:
	@tests/library
	@tests/rust cargo run --release --package trials --bin bench -- $(MOST)
