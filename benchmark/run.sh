#!/bin/sh
# run.sh [--places | --packed] [--quick] [ROUNDS]: compiles the library's twins and compares them with it. See README.md here.
# If there is no libcapi.a, libcuts.a, libmerge_c.a, liboverlay_c.a or libpacked_c.a, 'rt lib' makes it. SREC_LIB_DIR
# names another folder that has all five.
set -eu
root=$(cd "$(dirname "$0")/.." && pwd)
library= others=
for name in capi cuts merge_c overlay_c packed_c; do
    archive=${SREC_LIB_DIR:-$root/crates/$name/out}/lib$name.a
    [ -f "$archive" ] || [ -n "${SREC_LIB_DIR:-}" ] || (cd "$root/crates/$name" && rt lib >&2)
    [ -f "$archive" ] || { echo "$archive is missing" >&2; exit 2; }
    if [ "$name" = capi ]; then library=$archive; else others="$others $archive"; fi
done
bin=$(mktemp -d)
trap 'rm -rf "$bin"' EXIT
trap 'exit 2' HUP INT TERM
places='0 16 32 48'

usage() {
    echo 'usage: run.sh [--places | --packed] [--quick] [ROUNDS]' >&2
    exit 2
}

compile() { # NAME SOURCE WORDS..
    name=$1 source=$2
    shift 2
    gcc -O2 -std=c11 -Wall -Wextra -Werror -I "$root/include" "$@" -c "$root/benchmark/$source.c" -o "$bin/$name.o"
}

address() { # PLACE: where srec_load is
    echo $((0x$(nm "$bin/compare$1" | awk '$3 == "srec_load" { print $1 }')))
}

# Links $bin/compareN with N bytes of padding before the library's code. The twins stand before it and do not move.
link_place() { # N
    printf '.text\n.balign 16\n.org %s\n.section .note.GNU-stack,"",@progbits\n' "$1" >"$bin/padding.s"
    gcc "$bin"/*.o "$bin/padding.s" "$library" $others -o "$bin/compare$1"
    [ $(($(address "$1") - $(address 0))) -eq "$1" ] || { echo "srec_load did not move by $1 bytes" >&2; exit 2; }
}

# From lines of place, text, seconds of the library and of tuned: the minimum of each time at each place, and of each
# text the range over the places. With four places the median is the mean of the two in the middle.
merge() {
    awk -F '\t' -v places="$places" '
    { key = $1 FS $2 }
    !($2 in seen) { seen[$2]; texts[++number] = $2 }
    !(key in library) || $3 < library[key] { library[key] = $3 }
    !(key in tuned) || $4 < tuned[key] { tuned[key] = $4 }
    END {
        n = split(places, place, " ")
        for (t = 1; t <= number; t++) {
            columns = ""
            for (i = 1; i <= n; i++) {
                key = place[i] FS texts[t]
                ratio = tuned[key] / library[key]
                columns = columns sprintf(" %5.2f |", ratio)
                for (j = i; j > 1 && sorted[j - 1] > ratio; j--)
                    sorted[j] = sorted[j - 1]
                sorted[j] = ratio
            }
            median = (sorted[int((n + 1) / 2)] + sorted[int(n / 2) + 1]) / 2
            printf "%s %5.2f | %5.2f | %5.2f |%s\n", texts[t], sorted[1], median, sorted[n], columns
        }
    }' "$1"
}

compare_places() { # [--quick] [ROUNDS]
    quick=
    [ "${1:-}" != --quick ] || { quick=$1; shift; }
    rounds=${1:-5}
    [ $# -le 1 ] || usage
    case $rounds in
    *[!0-9]* | 0*) usage ;;
    esac
    for place in $places; do
        link_place "$place"
    done
    round=0
    while [ $((round += 1)) -le "$rounds" ]; do
        echo "round $round of $rounds" >&2
        for place in $places; do
            "$bin/compare$place" $quick --lines 1 >"$bin/lines"
            sed "s/^/$place	/" "$bin/lines" >>"$bin/all"
        done
    done
    printf 'How many times as fast as `tuned` the library is with 0, 16, 32 and 48 bytes of padding before its code. '
    printf 'Minimum of %s rounds, of %s below 16 MiB.\n\n' "$rounds" $((4 * rounds))
    echo '| | order | MiB | record | least | median | greatest | 0 | 16 | 32 | 48 |'
    echo '|---|---|--:|--:|--:|--:|--:|--:|--:|--:|--:|'
    merge "$bin/all"
}

compile plain plain
compile table plain -DTABLE
compile tuned tuned
compile generate generate
compile programs programs
compile loads loads
compile tapes tapes
compile parts parts
compile overlays overlays -O3
compile packed packed
compile compare compare

gcc --version | head -n 1
if [ "${1:-}" = --places ]; then
    shift
    compare_places "$@"
else
    gcc "$bin"/*.o "$library" $others -o "$bin/compare"
    "$bin/compare" "$@"
fi
