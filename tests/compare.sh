#!/usr/bin/env bash
# Compare an inspector with the model on random lines: compare.sh INSPECT SEED COUNT
# An odd seed leaves out the last line feed.
set -euo pipefail
export LC_ALL=C PYTHONDONTWRITEBYTECODE=1

if (($# != 3)); then
    echo "usage: $0 INSPECT SEED COUNT" >&2
    exit 2
fi
inspect=$1 seed=$2 count=$3
tests=$(dirname "$0")
dir=$(mktemp -d)
trap 'rm -rf "$dir"' EXIT

# Put the number of the input line before each line of its answer.
number() { awk '{ print answers + 1 ": " $0 } /^(end|fault|line) / { answers++ }'; }

python3 "$tests/damage.py" --seed "$seed" --count "$count" >"$dir/lines"
if ((seed % 2)); then
    truncate -s -1 "$dir/lines"
fi
python3 "$tests/model/inspect_model.py" <"$dir/lines" | number >"$dir/expected"

if ! "$inspect" <"$dir/lines" >"$dir/raw"; then
    echo "$inspect did not end with status 0"
    exit 1
fi
bash "$tests/normalise.sh" <"$dir/raw" | number >"$dir/said"

if ! diff "$dir/expected" "$dir/said" >"$dir/diff"; then
    echo "INPUT LINE: ANSWER, < expected, > said (seed $seed)"
    head -n 20 "$dir/diff"
    first=$(sed -n -E '2s/^[<>] ([0-9]+):.*/\1/p' "$dir/diff")
    printf 'input line %s is: ' "$first"
    sed -n "${first}p" "$dir/lines"
    exit 1
fi
echo "$count lines agree (seed $seed)"
