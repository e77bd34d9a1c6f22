#!/usr/bin/env bash
# Compare an inspector with the model on images of chips: compare_images.sh INSPECT SEED
set -euo pipefail
export LC_ALL=C PYTHONDONTWRITEBYTECODE=1

if (($# != 2)); then
    echo "usage: $0 INSPECT SEED" >&2
    exit 2
fi
inspect=$(realpath "$1") seed=$2
tests=$(realpath "$(dirname "$0")")
dir=$(mktemp -d)
trap 'rm -rf "$dir"' EXIT
mkdir "$dir/images"

python3 "$tests/images.py" --seed "$seed" --folder "$dir/images" >"$dir/lines"
cd "$dir/images"
python3 "$tests/model/inspect_model.py" <"$dir/lines" >"$dir/expected"

if ! "$inspect" <"$dir/lines" >"$dir/raw"; then
    echo "$inspect did not end with status 0"
    exit 1
fi
bash "$tests/normalise.sh" <"$dir/raw" >"$dir/said"

if ! diff "$dir/expected" "$dir/said" >"$dir/diff"; then
    echo "LINES OF THE ANSWERS, < expected, > said (seed $seed)"
    head -n 20 "$dir/diff"
    exit 1
fi
echo "$(wc -l <"$dir/lines") lines about images agree (seed $seed)"
