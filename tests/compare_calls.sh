#!/usr/bin/env bash
# Compare a trace program with the model on random lines: compare_calls.sh TRACE SEED COUNT
set -euo pipefail
export LC_ALL=C PYTHONDONTWRITEBYTECODE=1

if (($# != 3)); then
    echo "usage: $0 TRACE SEED COUNT" >&2
    exit 2
fi
trace=$1 seed=$2 count=$3
tests=$(dirname "$0")
dir=$(mktemp -d)
trap 'rm -rf "$dir"' EXIT

python3 "$tests/calls.py" --seed "$seed" --count "$count" >"$dir/lines"
python3 "$tests/model/trace_model.py" <"$dir/lines" >"$dir/expected"

if ! "$trace" <"$dir/lines" >"$dir/said"; then
    echo "$trace did not end with status 0"
    exit 1
fi

if ! diff "$dir/expected" "$dir/said" >"$dir/diff"; then
    echo "LINES OF THE ANSWERS, < expected, > said (seed $seed)"
    head -n 20 "$dir/diff"
    # The answers that are whole before the first difference: those of an `all` end with its last line.
    equal=$(sed -n -E -e '1s/^([0-9]+)a.*/\1/p; t' -e '1s/^([0-9]+).*/\1 - 1/p' "$dir/diff")
    answers=$(head -n $((equal)) "$dir/expected" | grep -c '^[a-z]' || true)
    grep -n -v -E '^(cell|torn) ' "$dir/lines" | sed -n -E "$((answers + 1))s/^([0-9]+):/input line \\1 is: /p"
    exit 1
fi
echo "$count calls agree (seed $seed)"
