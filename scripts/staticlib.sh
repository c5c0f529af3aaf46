#!/bin/sh
# Proves and builds the C interface (include/max3420e.h) as static libraries, all three or those that are named:
#     sh scripts/staticlib.sh [capi|capi_classroom|capi_lesson]..
# Crate NAME_c exports what crate NAME promises; its library goes to target/staticlib/libNAME.a.
set -eu
cd "$(dirname "$0")/.."
[ "$#" -gt 0 ] || set -- capi capi_classroom capi_lesson
for name in "$@"; do
    case $name in
    capi | capi_classroom | capi_lesson) ;;
    *) echo "staticlib: there is no '$name': capi, capi_classroom or capi_lesson" >&2; exit 1 ;;
    esac
done
mkdir -p target/staticlib
for name in "$@"; do
    (cd "crates/${name}_c" && rt lib)
    cp "crates/${name}_c/out/lib${name}_c.a" "target/staticlib/lib$name.a"
done
