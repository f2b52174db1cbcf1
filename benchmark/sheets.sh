#!/bin/sh
# sheets.sh: times patch sheets by number and by name. If there is no libsymbol_c.a, 'rt lib' makes it. See README.md here.
set -eu
root=$(cd "$(dirname "$0")/.." && pwd)
library=${SREC_LIB_DIR:-$root/crates/symbol_c/out}/libsymbol_c.a
[ -f "$library" ] || [ -n "${SREC_LIB_DIR:-}" ] || (cd "$root/crates/symbol_c" && rt lib >&2)
bin=$(mktemp -d)
trap 'rm -rf "$bin"' EXIT
gcc -O2 -std=c11 -D_POSIX_C_SOURCE=199309L -Wall -Wextra -Werror -I "$root/include" "$root/benchmark/sheets.c" "$library" -o "$bin/sheets"
"$bin/sheets"
