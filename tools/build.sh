#!/bin/sh
# Proves and builds what a workshop or another program uses, and puts it under target/:
#   tools/build.sh programs   bin/logbook, bin/placard, bin/show, bin/equipment
#   tools/build.sh counted    bin/counted
#   tools/build.sh library    staticlib/libnodhulika.a, by the compiler that is written in Rattle: it calls nothing
#   tools/build.sh library-llvm    the same by LLVM: it calls memset and memcpy
set -eu
cd "$(dirname "$0")/.."

program() {
    (cd "crates/$1" && rt run < /dev/null > /dev/null)
    mkdir -p target/bin
    cp "crates/$1/out/$1" "target/bin/$2"
}

archive() {
    (cd crates/nodhulika_c && rt lib "$@")
    mkdir -p target/staticlib
    cp crates/nodhulika_c/out/libnodhulika_c.a target/staticlib/libnodhulika.a
}

case "${1-}" in
programs)
    program logbook_to_record logbook
    program placard placard
    program show show
    program equipment equipment
    ;;
counted)
    program counted counted
    ;;
library)
    archive --backend rattle
    ;;
library-llvm)
    archive
    ;;
*)
    echo "usage: tools/build.sh programs|counted|library|library-llvm" >&2
    exit 2
    ;;
esac
