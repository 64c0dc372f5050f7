#!/bin/bash
# Runs each test, each row and each program once as `rt try` builds it, with checks at run time: it stops at an index out of bounds, an
# overflow, a failed `unwrap`, and, by the address sanitizer, at memory that is not the program's. lb_rows runs each of its rows in a run of
# its own, and lbsim and lbcheck are given the rows' scripts and streams in `crates/lb_rows/data`. Nothing is proved. It takes the crates
# that are named, else all. A line for each, with its seconds; the last line is 'N passed, M failed'.
set -euo pipefail
shopt -s nullglob
unset CDPATH

cd "$(dirname "$(readlink -f "${BASH_SOURCE[0]}")")/.."
room=$(mktemp -d)
trap 'rm -rf "$room"' EXIT
passed=0
failed=0

# NAME STATUS: counts it, with what it said where it failed.
count() {
    if [ "$2" -eq 0 ]; then
        echo "$1: no fault in $((SECONDS - begun)) seconds"
        passed=$((passed + 1))
    else
        echo "$1: status $2"
        tail -n 20 "$room/said"
        failed=$((failed + 1))
    fi
}

# The tests of a crate.
tests_of() {
    local status=0
    (cd "crates/$1" && rt try --test --seconds 1800) >"$room/said" 2>&1 </dev/null || status=$?
    count "$1: its tests" "$status"
}

# A program of the gate: it ends with status 0, and prints what it prints in the gate.
program() {
    local status=0 words=() files=() file
    [ ! -e "crates/$1/args" ] || mapfile -t words <"crates/$1/args"
    for file in crates/"$1"/data/*; do files+=(--data "$(basename "$file")=data/$(basename "$file")"); done
    (cd "crates/$1" && rt try --seconds 1800 "${files[@]}" -- "${words[@]}") </dev/null >"$room/output" 2>"$room/said" || status=$?
    if [ "$status" -eq 0 ] && [ -e "crates/$1/stdout" ]; then
        diff "crates/$1/stdout" "$room/output" >"$room/said" || status=$?
    fi
    count "$1" "$status"
}

# CRATE FLAG..: its program is run on each case in the folder $room/cases, and each run ends as the case wants.
cases_of() {
    local status=0 wanted held
    (cd "crates/$1" && rt try --seconds 1800 --cases "$room/cases" "${@:2}") >"$room/said" 2>&1 </dev/null || true
    wanted=$(find "$room/cases" -name '*.stdout' | wc -l)
    held=$(grep -c '^case=.* run=ended .*output=expected' "$room/said" || true)
    [ "$wanted" -gt 0 ] && [ "$held" -eq "$wanted" ] || status=1
    grep -v '^case=.* run=ended .*output=expected' "$room/said" >"$room/odd" || true
    mv "$room/odd" "$room/said"
    count "$1: $held of $wanted cases" "$status"
}

# ENDING ANSWERS WORD..: the rows with these endings as cases, each with these words.
lay_out() {
    local file name
    rm -rf "$room/cases"
    mkdir "$room/cases"
    for file in crates/lb_rows/data/*."$1"; do
        name=$(basename "$file" ."$1")
        cp "$file" "$room/cases/$name"
        cp "${file%."$1"}.$2" "$room/cases/$name.stdout"
        [ "$#" -eq 2 ] || printf '%s\n' "${@:3}" >"$room/cases/$name.args"
    done
}

# The words that a row's stream is replayed with, as lb_rows replays it.
words_of() {
    case $1 in
    *-at-limit | *-past-limit) echo --max-body 5 ;;
    head-alone) echo --method HEAD ;;
    no-content-accepted | refused-by-validator) echo --accept 204 ;;
    not-modified-accepted) echo --accept 304 ;;
    esac
}

replays() {
    local file name words
    lay_out stream answer replay
    for file in "$room"/cases/*.args; do
        name=$(basename "$file" .args)
        read -ra words <<<"$(words_of "$name")" || true
        [ "${#words[@]}" -eq 0 ] || printf '%s\n' "${words[@]}" >>"$file"
    done
    cases_of lbcheck
}

# lb_rows on the name of each of its rows; those that are run a step at a time are one case.
rows() {
    local number=0 line files=() file
    rm -rf "$room/cases"
    mkdir "$room/cases"
    : >"$room/cases/steps"
    echo 0 >"$room/cases/steps.args"
    grep ', a step at a time: ' crates/lb_rows/stdout >"$room/cases/steps.stdout"
    while read -r line; do
        number=$((number + 1))
        : >"$room/cases/row-$number"
        echo "${line%: as it should be}" >"$room/cases/row-$number.args"
        echo "$line" >"$room/cases/row-$number.stdout"
    done < <(grep -v ', a step at a time: ' crates/lb_rows/stdout)
    for file in crates/lb_rows/data/*; do files+=(--data "$(basename "$file")=data/$(basename "$file")"); done
    cases_of lb_rows "${files[@]}"
}

names=("$@")
if [ "$#" -eq 0 ]; then
    names=(lb_tests lb_thread_tests lb_group_tests lb_rows lb_example lbsim lbcheck lb_cost lb_soak)
fi
for name in "${names[@]}"; do
    begun=$SECONDS
    case $name in
    *_tests) tests_of "$name" ;;
    lbsim)
        lay_out script answers
        cases_of lbsim
        ;;
    lbcheck) replays ;;
    lb_rows) rows ;;
    *) program "$name" ;;
    esac
done
echo "$passed passed, $failed failed"
[ "$failed" -eq 0 ]
