#!/usr/bin/env bash
# tests/link.sh OUT SOURCES..: compiles C sources and links them with the proved library into OUT, a program
# for x86-64 that tests/run-x86.sh runs. Everything is the kit's: clang, linker, C library. The kit has no C
# headers, so tests/headers has the few that are used; include/ has kaunorpi.h. CFLAGS replaces -O2; ALSO names one
# archive more to link.
# Prints nothing but what goes wrong.
set -eu
here=$(cd "$(dirname "$(readlink -f "${BASH_SOURCE[0]}")")/.." && pwd)
. "$here/tests/kit.sh"
[ $# -ge 2 ] || { echo "use: tests/link.sh OUT SOURCES.." >&2; exit 2; }
out=$1
shift
archive=$here/target/libkaunorpi.a
room=$(mktemp -d)
trap 'rm -rf "$room"' EXIT

"$here/library" >/dev/null || exit 1

objects=()
for source in "$@"; do
    object=$room/${#objects[@]}.o
    # shellcheck disable=SC2086
    "$tools/bin/clang" --target=x86_64-unknown-linux-gnu -std=c11 ${CFLAGS--O2} -Wall -Wextra -Werror -fPIE -nostdinc \
        -isystem "$here/tests/headers" -I "$here/include" -c -o "$object" "$source"
    objects+=("$object")
done
"$kit/bin/rattle-link" --target x86_64-unknown-linux-gnu --toolchain "$tools" -o "$out" "${objects[@]}" ${ALSO:+"$ALSO"} "$archive" \
    >"$room/said" 2>&1 || { cat "$room/said" >&2; exit 1; }
