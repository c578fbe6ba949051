#!/usr/bin/env bash
# tests/run-x86.sh BIN ARGS..: runs a program with the kit's loader and C library.
set -eu
. "$(dirname "$(readlink -f "${BASH_SOURCE[0]}")")/kit.sh"
exec "$tools/lib/ld-linux-x86-64.so.2" --library-path "$tools/lib" "$@"
