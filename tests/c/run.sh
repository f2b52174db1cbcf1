#!/bin/sh
# Compiles the example and the programs here against include/srec.h and the library, as C99, C11 and C++, and runs them.
# SREC_STAND_IN leaves out what a library that takes memory of its own cannot do.
# SREC_LIB_DIR and SREC_INCLUDE_DIR name other folders for libsrec.a and srec.h, STRESS_CASES another number of cases.
# One line a check; the last line is 'N passed, M failed'.
set -u
root=$(cd "$(dirname "$0")/../.." && pwd) || exit 2
library=${SREC_LIB_DIR:-$root/target}/libsrec.a
include=${SREC_INCLUDE_DIR:-$root/include}
examples=$root/examples
cases=${STRESS_CASES:-1000}
if [ ! -f "$library" ]; then
    echo "$library is missing: run 'make', or set SREC_LIB_DIR to a folder that has libsrec.a" >&2
    exit 2
fi
bin=$(mktemp -d) || exit 2
trap 'rm -rf "$bin"' EXIT
trap 'exit 2' HUP INT TERM
passed=0 failed=0

check() { # TITLE COMMAND..: runs the command and shows what it printed if it fails.
    title=$1
    shift
    if "$@" >"$bin/log" 2>&1; then
        passed=$((passed + 1))
        echo "ok    $title"
    else
        echo "FAIL  $title (exit status $?)"
        sed 's/^/      /' "$bin/log"
        failed=$((failed + 1))
    fi
}

compile() { # SOURCE: as C to NAME, as C++ to NAME++, and as C with the compiler's own run-time checks to NAME-checked.
    name=$(basename "$1" .c)
    check "$name compiles as C99" \
        gcc -std=c99 -pedantic -Wall -Wextra -Werror -O2 -I "$include" -c "$1" -o "$bin/$name.o"
    check "$name compiles as C" \
        gcc -std=c11 -Wall -Wextra -Werror -O2 -g -I "$include" "$1" "$library" -o "$bin/$name"
    check "$name compiles as C++" \
        g++ -std=c++17 -Wall -Wextra -Werror -O2 -g -I "$include" -x c++ "$1" -x none "$library" -o "$bin/$name++"
    check "$name compiles with run-time checks" \
        gcc -std=c11 -Wall -Wextra -Werror -O1 -g -fsanitize=address,undefined -fno-sanitize-recover=all \
        -I "$include" "$1" "$library" -o "$bin/$name-checked"
}

watched() { # NAME ARGUMENTS..: valgrind sees the library too, the compiler's checks only the C around it.
    program=$bin/$1
    shift
    if command -v valgrind >/dev/null 2>&1; then
        valgrind --error-exitcode=9 -q "$program" "$@"
    else
        "$program-checked" "$@"
    fi
}

gives() { # STATUS OUTPUT WORDS ARGUMENTS..: what the example must give; no words, no message.
    status=$1 output=$2 words=$3
    shift 3
    watched canonical "$@" >"$bin/out" 2>"$bin/err"
    got=$?
    cat "$bin/err"
    echo "exit status $got, to be $status"
    [ "$got" -eq "$status" ] && cmp "$bin/out" "$output" || return 1
    if [ -n "$words" ]; then
        grep -qF -- "$words" "$bin/err"
    else
        [ ! -s "$bin/err" ]
    fi
}

prints() { # OUTPUT COMMAND..: the command must print this, whatever its exit status.
    expected=$1
    shift
    printed=$("$@")
    echo "printed '$printed', to be '$expected'"
    [ "$printed" = "$expected" ]
}

# the programs that the header's comment and README.md show
awk '/^ \* Example:/ { on = 1; next } /^ \*\// { on = 0 } on { sub(/^ \*(     )?/, ""); print }' "$include/srec.h" >"$bin/shown-header.c"
awk '/^```c$/ { on = 1; next } /^```$/ { on = 0 } on' "$root/README.md" >"$bin/shown-readme.c"

for source in "$root"/tests/c/*.c "$examples/canonical.c" "$bin/shown-header.c" "$bin/shown-readme.c"; do
    compile "$source"
done

named() { # the manual page names every function that the header declares
    sed -n 's/^\(static inline \)\{0,1\}[a-z_0-9 ]*[ *]\(srec_[a-z_]*\)(.*/\2/p' "$include/srec.h" | sort -u >"$bin/functions"
    [ "$(wc -l <"$bin/functions")" -ge 20 ] || return 1
    while read -r function; do
        grep -qw "$function" "$root/tools/srec.3" || { echo "$function is missing"; return 1; }
    done <"$bin/functions"
}
check "srec(3) names each function" named

command -v valgrind >/dev/null 2>&1 || echo "no valgrind here: 'watched' means the compiler's run-time checks"
for name in words layout empty tape answers span images symbols parts; do
    check "$name, watched" watched "$name"
    check "$name, as C++" "$bin/$name++"
    check "$name, with run-time checks" "$bin/$name-checked"
done
[ -n "${SREC_STAND_IN:-}" ] || check "huge" "$bin/huge"
check "stress, watched, $cases cases of each format" watched stress "$cases" "$examples"/*.srec
cat "$bin/log"
check "stress, with run-time checks, ${cases}0 cases of each format" "$bin/stress-checked" "${cases}0" "$examples"/*.srec
[ -n "${SREC_STAND_IN:-}" ] || check "hostile, watched, $cases cases of each function" watched hostile "$cases"
cat "$bin/log"
[ -n "${SREC_STAND_IN:-}" ] || check "hostile, with run-time checks, ${cases}0 cases of each function" "$bin/hostile-checked" "${cases}0"

check "header's example, two cells" \
    prints '2 of 32768 cells' sh -c 'printf "S1058000AA557B\nS9030000FC\n" | "$0"' "$bin/shown-header"
check "header's example, a cell outside" prints 'record 2 at 11: some data lies outside the window' \
    sh -c 'printf "S0030000FC\nS1040000AA51\nS9030000FC\n" | "$0"' "$bin/shown-header"

sample=$examples/sample.srec
canonical=$examples/sample.canonical
check "README's example, sample" sh -c '"$0" <"$1" | cmp - "$2"' "$bin/shown-readme" "$sample" "$canonical"
check "README's example, a cell outside" prints 'record 1 at 0: some data lies outside the window' \
    sh -c 'printf "S2050100005A9F\nS9030000FC\n" | "$0" 2>&1' "$bin/shown-readme"

nothing=/dev/null
printf 'S0030000FC\nS5030000FC\nS9030000FC\n' >"$bin/shortest"
printf 'S0030000FC\nS306FFFFFFFF5AA3\nS5030001FB\nS70500000000FA\n' >"$bin/top"
printf 'S1040000AB51\nS9030000FC\n' >"$bin/wrong"
# longer than the example's first buffer, and than its second
{ head -c 200000 /dev/zero | tr '\0' '\n'; cat "$sample"; } >"$bin/long"
{ head -c 200000 /dev/zero | tr '\0' '\r'; cat "$examples/lost-bit.srec"; } >"$bin/long-refused"
check "example, sample" gives 0 "$canonical" '' "$sample"
check "example, standard input" gives 0 "$canonical" '' <"$sample"
check "example, its own output" gives 0 "$canonical" '' "$canonical"
check "example, a long text" gives 0 "$canonical" '' "$bin/long"
check "example, no cells" gives 0 "$bin/shortest" '' "$bin/shortest"
check "example, the last address" gives 0 "$bin/top" '' "$bin/top"
check "example, lost bit" \
    gives 1 $nothing 'record 2, character 43: row 13: a cell is addressed twice' "$examples/lost-bit.srec"
check "example, a long text that is refused" \
    gives 1 $nothing 'record 2, character 200043: row 13: a cell is addressed twice' "$bin/long-refused"
check "example, a wrong checksum" \
    gives 1 $nothing 'record 1, character 0: row 7: the checksum is wrong, 50 would be right' "$bin/wrong"
check "example, no text" gives 1 $nothing 'record 0, character 0: row 14: there is no terminator' /dev/null
check "example, two files" gives 2 $nothing 'usage: ' "$sample" "$sample"
check "example, no file" gives 2 $nothing 'No such file' "$bin/none"
check "example, a folder" gives 2 $nothing 'Is a directory' "$bin"
check "example, a full disk" prints 'canonical: standard output: No space left on device' \
    sh -c '"$0" "$1" 2>&1 >/dev/full' "$bin/canonical" "$sample"

echo "$passed passed, $failed failed"
[ "$failed" -eq 0 ]
