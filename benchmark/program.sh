#!/bin/sh
# program.sh [ROUNDS]: times the program 'srec canon' beside 'objcopy -I srec -O srec' on texts of up to 16 MiB. See README.md here.
# SREC names another program than target/srec, which 'make' writes.
set -eu
root=$(cd "$(dirname "$0")/.." && pwd)
srec=${SREC:-$root/target/srec}
[ -x "$srec" ] || { echo "$srec is missing: run 'make', or set SREC to the program" >&2; exit 2; }
command -v objcopy >/dev/null || { echo 'there is no objcopy' >&2; exit 2; }
bin=$(mktemp -d)
trap 'rm -rf "$bin"' EXIT
trap 'exit 2' HUP INT TERM
gcc -O2 -std=c11 -Wall -Wextra -Werror -I "$root/include" "$root/benchmark/program.c" "$root/benchmark/generate.c" \
    "$root/benchmark/tuned.c" -o "$bin/program"
objcopy --version | head -n 1
"$bin/program" "$bin" "${1:-9}" "$srec"
