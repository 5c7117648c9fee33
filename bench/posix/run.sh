#!/bin/sh
# Builds the benchmark's library and its driver, and runs them. It wants a C compiler and Debian's libacl1-dev
# (apt-get install libacl1-dev).
. "$(dirname "$0")/../common.sh"
want_libacl
build_driver bench_lists bench $count_allocations bench/posix/bench.c
exec "$driver" "$@"
