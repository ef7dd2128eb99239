.PHONY: run test host host-test bench

# A script under examples/, and where the C host is built.
SCRIPT = examples/two-designers.script
HOST = target/host
CC = gcc
CFLAGS = -std=c11 -O2 -Wall -Wextra -Werror

# The store's library, and the toolchain's, which has the one name that it leaves open.
LIBRARIES = crates/nalzeiku/out/libnalzeiku.a "$$(dirname "$$(rt doc)")/c/liblibc_c.a"

# Proves what the program needs, builds it, and runs it on a script: each line beside its answer. Then it holds what the
# program writes to the answers that are kept beside the script.
run:
	cd crates/tryout && rt run < stdin > /dev/null
	crates/tryout/out/tryout < $(SCRIPT) | paste -d '\t' $(SCRIPT) - | expand -t 24
	crates/tryout/out/tryout < $(SCRIPT) | cmp - $(SCRIPT:.script=.answers)

# The whole gate, the misuses that the compiler has to refuse, whole inputs of the try-out program, and the C host.
test:
	bash .ci/run
	sh tools/misuses.sh
	sh tools/tryout.sh
	$(MAKE) host-test

# The C program over the static library.
host:
	cd crates/nalzeiku && rt lib
	mkdir -p $(HOST)
	$(CC) $(CFLAGS) host/run.c $(LIBRARIES) -o $(HOST)/run
	$(HOST)/run examples/save.script | cmp - examples/save.answers

# The limits of the library, from C.
host-test: host
	$(CC) $(CFLAGS) -Wl,--wrap=malloc host/test.c $(LIBRARIES) -o $(HOST)/test
	$(HOST)/test

# What the store costs beside other stores.
bench:
	$(MAKE) -C bench run
