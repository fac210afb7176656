#!/bin/sh
# day.sh: calls ./day in each way that it takes, and in some that it refuses, and says what went wrong.
set -u
top=$(cd "$(dirname "$0")/.." && pwd)
sheet=$top/tests/sample.txt
expected=$top/crates/daysheet/stdout
work=$(mktemp -d)
trap 'rm -rf "$work"' EXIT
failed=0

# reports NAME: what day printed is the sample's report, and it said nothing else.
reports() {
    if ! cmp -s "$work/out" "$expected" || [ -s "$work/err" ]; then
        echo "$1: not the sample's report alone: $(cat "$work/err")"
        failed=1
    fi
}

# refuses NAME STATUS WORDS: day ended with the status, printed nothing, and said the words.
refuses() {
    if [ "$status" -ne "$2" ] || [ -s "$work/out" ] || ! grep -qF -e "$3" "$work/err"; then
        echo "$1: status $status, $(cat "$work/err")"
        failed=1
    fi
}

run() {
    "$@" >"$work/out" 2>"$work/err"
    status=$?
}

# The program is built by the first call, which may say so.
"$top/day" "$sheet" >"$work/out" || exit 1
: >"$work/err"
reports "first call"

cd "$top" || exit 1
run ./day tests/sample.txt
reports "from the top"
run sh day tests/sample.txt
reports "by sh"
cd "$top/tests" || exit 1
run ../day sample.txt
reports "from another folder"
ln -s "$top/day" "$work/linked"
ln -s linked "$work/again"
cd "$work" || exit 1
cp "$sheet" "a sheet.txt"
run ./again "a sheet.txt"
reports "through two links"
PATH=$work:$PATH
run linked "$sheet"
reports "from the path"
run ./linked - <"$sheet"
reports "from standard input"
run ./linked <"$sheet"
reports "without a sheet"
mkfifo pipe
cat "$sheet" >pipe &
run ./linked pipe
reports "from a named pipe"
printf "%s\n" "$(cat "$sheet")" | ./linked - >out 2>err
reports "from a pipe"
touch "$top/crates/daysheet/src/main.rt"
run ./linked "$sheet"
reports "after a touched source"

run ./linked smaple.txt
refuses "a mistyped name" 1 "there is no sheet smaple.txt"
run ./linked "$work"
refuses "a folder" 1 "is a folder"
run ./linked "$sheet" "$sheet"
refuses "two sheets" 2 "usage"
run ./linked --halp
refuses "another option" 1 "there is no sheet --halp"
run ./linked --help
if [ "$status" -ne 0 ] || ! grep -q '^usage: daysheet' out; then
    echo "--help: status $status"
    failed=1
fi

[ "$failed" -ne 0 ] || echo "day: every call as it should be"
exit "$failed"
