#!/bin/sh
# Builds the program, the benchmark's library and its driver, and runs them. It wants a C compiler and Debian's libacl1-dev
# (apt-get install libacl1-dev).
. "$(dirname "$0")/../common.sh"
want_libacl
bin/aclctl decide --owner 0 --group 0 --uid 0 --perms r u::r,g::-,o::- > /dev/null
build_driver bench_run bench bench/run/bench.c bench/run/libacl.c
folder=$(mktemp -d)
trap 'rm -rf "$folder"' EXIT
"$driver" "$PWD/crates/aclctl/out/aclctl" "$folder" "$@"
