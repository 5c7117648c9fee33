# What the run.sh of the drivers share: each reads this first, and stands at the repository's top then.
set -e
cd "$(dirname "$0")/../.."
# For the compiler: the driver sees all allocations (allocations.h), and what is linked behind the libraries.
count_allocations=-Wl,--wrap=malloc,--wrap=calloc,--wrap=realloc
links=

# Has the driver linked with libacl, or stops if there is none.
want_libacl() {
    if ! echo '#include <sys/acl.h>' | ${CC:-cc} -E - > /dev/null 2>&1; then
        echo "run.sh: no <sys/acl.h>: install Debian's libacl1-dev (apt-get install libacl1-dev)" >&2
        exit 1
    fi
    links=-lacl
}

# Builds the library of a crate, and of it and of further words for the compiler a driver in the crate's out/:
# build_driver CRATE NAME WORDS..
build_driver() {
    crate=$1
    driver=crates/$1/out/$2
    shift 2
    (cd "crates/$crate" && rt lib)
    kit=$(dirname "$(dirname "$(readlink -f "$(command -v rt)")")")
    ${CC:-cc} -O2 -o "$driver" "$@" "crates/$crate/out/lib$crate.a" "$kit/c/liblibc_c.a" $links
}
