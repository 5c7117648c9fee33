#!/bin/sh
# Builds the C library and its drivers, and runs them: `run.sh test` what it answers beside libacl, the kernel and checks by hand, and
# what it allocates; `run.sh` how long checks take. It wants a C compiler and Debian's libacl1-dev (apt-get install libacl1-dev).
. "$(dirname "$0")/../common.sh"
want_libacl
if [ "$1" = test ]; then
    build_driver acl_c test -Wall -Wextra bench/capi/test.c
    "$driver"
    build_driver acl_c memory -Wall -Wextra -pthread -Wl,--wrap=malloc,--wrap=realloc,--wrap=free bench/capi/memory.c
    exec "$driver"
fi
build_driver acl_c bench $count_allocations bench/capi/bench.c
exec "$driver" "$@"
