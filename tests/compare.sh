#!/bin/sh
# compare.sh PROGRAM N [FIRST]: runs N random sheets, with seeds from FIRST
# (1 if not given), through PROGRAM and the model and shows the first
# difference. The sheet that differs is kept, and its path printed.
set -u

if [ $# -lt 2 ]; then
    echo "usage: compare.sh PROGRAM N [FIRST]" >&2
    exit 2
fi
program=$1
count=$2
first=${3:-1}
here=$(cd "$(dirname "$0")" && pwd)
work=$(mktemp -d)

seed=$first
last=$((first + count - 1))
while [ "$seed" -le "$last" ]; do
    python3 -B "$here/random_sheets.py" "$seed" > "$work/sheet.txt" || exit 2
    python3 -B "$here/model.py" < "$work/sheet.txt" > "$work/model.out" || exit 2
    "$program" < "$work/sheet.txt" > "$work/program.out"
    code=$?
    if [ "$code" -ne 0 ]; then
        echo "seed $seed: $program ended with code $code; sheet: $work/sheet.txt"
        exit 1
    fi
    if ! diff "$work/model.out" "$work/program.out" > "$work/difference"; then
        echo "seed $seed: outputs differ (< model, > program); sheet: $work/sheet.txt"
        head -20 "$work/difference"
        exit 1
    fi
    seed=$((seed + 1))
done
rm -r "$work"
echo "$count sheets agree"
