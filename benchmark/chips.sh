#!/bin/sh
# chips.sh: times dealing and collecting beside a copy. If there is no libchips_c.a, 'rt lib' makes it. See README.md here.
set -eu
root=$(cd "$(dirname "$0")/.." && pwd)
library=${SREC_LIB_DIR:-$root/crates/chips_c/out}/libchips_c.a
[ -f "$library" ] || [ -n "${SREC_LIB_DIR:-}" ] || (cd "$root/crates/chips_c" && rt lib >&2)
bin=$(mktemp -d)
trap 'rm -rf "$bin"' EXIT
gcc -O2 -std=c11 -D_POSIX_C_SOURCE=199309L -Wall -Wextra -Werror -I "$root/include" "$root/benchmark/chips.c" "$library" -o "$bin/chips"
"$bin/chips"
