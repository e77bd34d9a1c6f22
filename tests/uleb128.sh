#!/usr/bin/env bash
# Number cases with their forms as GNU as writes them: uleb128.sh numbers | expected
set -euo pipefail

# The examples of the DWARF standard, the edges, then numbers near powers of two and from a
# linear congruential generator, one to a line.
numbers() {
    printf '%d\n' 2 127 128 129 130 12857
    printf '%d\n' 0 1 {126..131} 255 256 {16382..16385} 65535 65536 \
        999999 1000000 1000001 2097150 2097151
    awk 'BEGIN {
        limit = 2097152
        for (power = 1; power <= limit; power *= 2)
            for (n = power - 2; n <= power + 2; n++)
                if (n >= 0 && n < limit) print n
        for (i = 0; i < 1400; i++) {
            x = (1664525 * x + 1013904223) % limit
            print x
            print int(x / 128)
            print int(x / 16384)
        }
    }'
}

# Each number with its bytes; the bytes are split after each one whose top bit is clear.
expected() {
    dir=$(mktemp -d)
    trap 'rm -rf "$dir"' EXIT
    numbers >"$dir/numbers"
    { echo .data && sed 's/^/.uleb128 /' "$dir/numbers"; } >"$dir/numbers.s"
    as -o "$dir/numbers.o" "$dir/numbers.s"
    objcopy -O binary -j .data "$dir/numbers.o" "$dir/bytes"
    od -An -v -t x1 -w1 "$dir/bytes" |
        awk '{ printf "%s%s", toupper($1), $1 ~ /^[0-7]/ ? "\n" : " " }' >"$dir/forms"
    if (($(wc -l <"$dir/numbers") != $(wc -l <"$dir/forms"))); then
        echo "as wrote another count of numbers" >&2
        exit 1
    fi
    paste -d ' ' "$dir/numbers" "$dir/forms"
}

case ${1-} in
numbers | expected) "$1" ;;
*)
    echo "usage: $0 numbers | expected" >&2
    exit 2
    ;;
esac
