# Sourced by every script that needs the Rattle kit: finds it through `rt` on the PATH.
# Sets kit (its folder) and tools (its compiler, linker and C library, for x86-64).
command -v rt >/dev/null || { echo "$0: rt is not on the PATH: install the Rattle kit" >&2; exit 2; }
kit=${RATTLE_HOME:-$(dirname "$(rt doc < /dev/null)")}
tools=$kit/toolchain
[ -x "$tools/bin/clang" ] || { echo "$0: the kit at $kit has no compiler" >&2; exit 2; }
