# The C side: the archive with its header, the examples, and the tests of the boundary; and `make check`, what the gate does not look at. The gate
# is .ci/run alone; nothing here is part of it. Everything is written to target/, and what rt makes to a crate's out/; neither is committed.
RT = rt
CC = gcc
CXX = g++
RUSTC = rustc
WARN = -Wall -Wextra -pedantic
OUT = target/nookmallow
LIB = $(OUT)/libnookmallow.a
# The part of the rounds that valgrind runs: one in so many.
SHARE = 40

.PHONY: check lib examples check-abi bench

# After a run of the gate: docs/CLAIMS.md and README.md are true of the tree, each must-fail edit was refused on a fact, and the boundary is as the
# header says.
check:
	tools/claims
	tools/must_fail_reasons
	$(MAKE) check-abi

lib:
	cd crates/nookmallow_c && $(RT) lib --cpu=x86-64
	mkdir -p $(OUT)
	cp crates/nookmallow_c/out/libnookmallow_c.a $(LIB)
	cp include/nookmallow.h include/nookmallow.rs $(OUT)

examples: lib
	mkdir -p target/examples
	$(CC) -O2 $(WARN) -Werror -std=c99 -I$(OUT) examples/controller.c $(LIB) -o target/examples/controller_c
	$(CXX) -O2 $(WARN) -Werror -x c++ -I$(OUT) examples/controller.c -x none $(LIB) -o target/examples/controller_cpp
	$(RUSTC) -O --edition 2021 examples/controller.rs -L $(OUT) -o target/examples/controller_rs

# The archive needs nothing of its host but the functions that the header names, and all of these; it has no data of its own that could change. The
# header's example is built and run. Then every call against its prediction, from C, from Rust and under valgrind; the tables of both languages; and
# the examples, which have to print the same.
check-abi: examples
	! nm $(LIB) | grep -E ' [BbCDdGgSs] '
	mkdir -p target/abi
	nm -u $(LIB) | sed -n 's/^ *U //p' | sort -u > target/abi/needed
	sed -n '/needs nothing but/,/\./p' include/nookmallow.h | grep -o 'mem[a-z]*' | sort -u > target/abi/named
	cmp target/abi/needed target/abi/named
	sed -n '/---- An example/,/---- The words/s/^ \*     //p' include/nookmallow.h > target/abi/example.c
	$(CC) -O2 $(WARN) -Werror -std=c99 -I$(OUT) target/abi/example.c $(LIB) -o target/abi/example
	target/abi/example > target/abi/example.txt
	printf 'pick %u: length %u, refusal %u\n' 1 0 9 2 2 0 3 2 0 4 2 0 | cmp - target/abi/example.txt
	$(CC) -O2 -g $(WARN) -std=c99 -pthread -I$(OUT) abi/*.c $(LIB) -o target/abi/test
	$(RUSTC) -O --edition 2021 abi/test.rs -L $(OUT) -o target/abi/test_rs
	target/abi/test
	target/abi/test_rs
	target/abi/test trace > target/abi/trace_c
	target/abi/test_rs trace > target/abi/trace_rs
	cmp target/abi/trace_c target/abi/trace_rs
	target/examples/controller_c > target/abi/controller_c
	target/examples/controller_cpp > target/abi/controller_cpp
	target/examples/controller_rs > target/abi/controller_rs
	cmp target/abi/controller_c target/abi/controller_cpp
	cmp target/abi/controller_c target/abi/controller_rs
	valgrind -q --error-exitcode=9 --leak-check=full target/abi/test $(SHARE)
	valgrind -q --error-exitcode=9 --leak-check=full target/examples/controller_c > /dev/null
	@echo "check-abi: no difference"

bench: lib
	bash bench/run.sh
