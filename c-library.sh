#!/usr/bin/env bash
# Proves a static library, and only then writes its archive into target/staticlib: libframe.a, which reads frames,
# or with the word table_bench or bridge_bench libtable_bench.a or libbridge_bench.a, the tables' or the bridge's work for
# the benchmarks. The bridge's work allocates, so the kit's C code for that goes beside it, into libheap.a.
set -eu
cd "$(dirname "$0")"
name=${1:-frame}
case $name in
    frame) crate=frame_c ;;
    table_bench | bridge_bench) crate=$name ;;
    *)
        echo "c-library.sh: there is no library $name" >&2
        exit 2
        ;;
esac
(cd "crates/$crate" && rt lib)
mkdir -p target/staticlib
cp "crates/$crate/out/lib$crate.a" "target/staticlib/lib$name.a"
if [ "$name" = bridge_bench ]; then
    cp "$(dirname "$(rt doc)")/c/liblibc_c.a" target/staticlib/libheap.a
fi
