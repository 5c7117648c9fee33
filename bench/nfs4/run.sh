#!/bin/sh
# Builds the benchmark's library and its driver, and runs them. It wants a C compiler.
. "$(dirname "$0")/../common.sh"
build_driver bench_lists bench-nfs4 $count_allocations bench/nfs4/bench.c
exec "$driver" "$@"
