#!/bin/sh
# Builds the benchmark's library and its driver, and runs them. It wants a C compiler.
. "$(dirname "$0")/../common.sh"
build_driver bench_lang bench bench/lang/bench.c
exec "$driver" "$@"
