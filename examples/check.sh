#!/bin/sh
# Runs every example and compares what is printed with what is expected of it, byte by byte.
#
#     sh check.sh [PROGRAM]
#
# PROGRAM is a path, and bin/bernoulli of this repository where it is left out. An example is a folder with `job.txt`;
# `expected` is printed by a run on any number of ranks, or on the one in `ranks` where a place is listed for that many, and
# `expected.replay`, where it stands, by a replay on 3 ranks, and `expected.plan` by `plan`.
# A folder of `refused/` has a job that is refused, or whose files are: `expected` is the line on the errors, for a run on
# 2 ranks or for the words in `words`. Each line of `refused/words` is a rule and words that it refuses.

here=$(cd "$(dirname "$0")" && pwd) || exit 1
case ${1:-} in
    '') program=$here/../bin/bernoulli ;;
    /*) program=$1 ;;
    *) program=$PWD/$1 ;;
esac

printed=$(mktemp -d) || exit 1
trap 'rm -rf "$printed"' EXIT
: >"$printed/nothing"

# expect STATUS OUT ERR WORDS..: for these words the program ends with this status, and these files are what it prints.
expect() {
    wanted=$1
    out=$2
    err=$3
    shift 3
    "$program" "$@" >"$printed/out" 2>"$printed/err"
    status=$?
    if [ "$status" -eq "$wanted" ] && cmp -s "$out" "$printed/out" && cmp -s "$err" "$printed/err"; then
        return
    fi
    echo "$example: bernoulli $*: status $status; < is expected, > is printed"
    diff "$out" "$printed/out"
    diff "$err" "$printed/err"
    exit 1
}

passed=0
for job in "$here"/*/job.txt; do
    folder=$(dirname "$job")
    example=$(basename "$folder")
    cd "$folder" || exit 1
    numbers='1 2 7'
    if [ -f ranks ]; then
        numbers=$(cat ranks)
    fi
    for ranks in $numbers; do
        expect 0 expected "$printed/nothing" run job.txt "$ranks"
    done
    if [ -f expected.replay ]; then
        expect 0 expected.replay "$printed/nothing" replay job.txt 3 7
    fi
    if [ -f expected.plan ]; then
        expect 0 expected.plan "$printed/nothing" plan job.txt
    fi
    passed=$((passed + 1))
done

for job in "$here"/refused/*/job.txt; do
    folder=$(dirname "$job")
    example=refused/$(basename "$folder")
    cd "$folder" || exit 1
    words='run job.txt 2'
    if [ -f words ]; then
        words=$(cat words)
    fi
    # shellcheck disable=SC2086
    expect 2 "$printed/nothing" expected $words
    passed=$((passed + 1))
done

example=refused/words
cd "$here/product" || exit 1
while read -r rule words; do
    echo "refused words $rule" >"$printed/line"
    # shellcheck disable=SC2086
    expect 2 "$printed/nothing" "$printed/line" $words
    passed=$((passed + 1))
done <"$here/refused/words"
echo "$passed examples passed"
