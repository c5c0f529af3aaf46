#!/bin/sh
# The C interface: the header's layout against the library, and the firmware of examples/ on the model, under the address and
# undefined-behaviour sanitizers. Run it once the three archives are built (sh scripts/staticlib.sh).
set -eu
cd "$(dirname "$0")/.."
for name in capi capi_classroom capi_lesson; do
    [ -f "target/staticlib/lib$name.a" ] || { echo "c: lib$name.a is missing: sh scripts/staticlib.sh $name" >&2; exit 1; }
done
work=$(mktemp -d)
trap 'rm -rf "$work"' EXIT
trap 'exit 1' HUP INT TERM

# build NAME SOURCE..
build() {
    name=$1
    shift
    cc -std=c99 -Wall -Wextra -Werror -pedantic -g -fsanitize=address,undefined -fno-sanitize-recover=all \
        -Iinclude -Iexamples "$@" target/staticlib/libcapi.a target/staticlib/libcapi_classroom.a \
        target/staticlib/libcapi_lesson.a -o "$work/$name"
}

build layout tests/layout.c
"$work/layout" >"$work/layout.out" || { cat "$work/layout.out" >&2; exit 1; }
tail -n 1 "$work/layout.out"
build connect examples/connect.c
"$work/connect" >"$work/connect.out"
cmp "$work/connect.out" examples/connect.out
build firmware examples/firmware.c examples/host.c
"$work/firmware" >"$work/firmware.out"
cmp "$work/firmware.out" examples/firmware.out
build classroom examples/classroom.c
"$work/classroom" >"$work/classroom.out"
cmp "$work/classroom.out" examples/classroom_c.out
build lesson examples/lesson.c
"$work/lesson" >"$work/lesson.out"
cmp "$work/lesson.out" examples/lesson_c.out
echo "c: layout, connect, firmware, classroom and lesson as expected"
