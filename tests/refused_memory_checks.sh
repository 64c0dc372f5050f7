#!/bin/bash
# Each request for memory refused in turn: `lbcheck replay` over the worked answers of lb_rows, once for each request that
# it makes. It has to say OutOfMemory, or what it says with all memory. The C library's calls are refused by refuse.c,
# which is compiled here by `cc` and loaded before it. A line for each answer; the last line is 'N passed, M failed'.
# LBCHECK names another program than the one that ./lbcheck builds.
set -euo pipefail
unset CDPATH

here=$(dirname "$(readlink -f "${BASH_SOURCE[0]}")")
rows=$here/../crates/lb_rows/data
room=$(mktemp -d)
trap 'rm -rf "$room"' EXIT
if [ -z "${LBCHECK-}" ]; then
    "$here/../lbcheck" --prove
    LBCHECK=$here/../crates/lbcheck/out/lbcheck
fi

cc -O1 -shared -fPIC -o "$room/refuse.so" "$here/refuse.c"

# N ARGUMENT..: what the program says and its status, the Nth request refused.
refused() {
    local status=0
    env -i REFUSED="$1" COUNTED="$room/counted" LD_PRELOAD="$room/refuse.so" "$LBCHECK" replay "${@:2}" 2>&1 || status=$?
    echo "status $status"
}

arguments() {
    case $1 in
    *-at-limit | *-past-limit) echo --max-body 5 ;;
    head-alone) echo --method HEAD ;;
    no-content-accepted | refused-by-validator) echo --accept 204 ;;
    not-modified-accepted) echo --accept 304 ;;
    esac
}

passed=0
failed=0
for stream in "$rows"/*.stream; do
    name=$(basename "$stream" .stream)
    read -ra words <<<"$(arguments "$name")" || true
    whole=$(refused 0 "${words[@]}" <"$stream")
    requests=$(cat "$room/counted")
    wrong=()
    out=0
    for number in $(seq "$requests"); do
        said=$(refused "$number" "${words[@]}" <"$stream")
        case $said in
        "$whole") ;;
        OutOfMemory*'status 1') out=$((out + 1)) ;;
        *) wrong+=("request $number: $said") ;;
        esac
    done
    if [ "${#wrong[@]}" -eq 0 ] && [ "$requests" -gt 0 ] && [[ $whole == "$(cat "$rows/$name.answer")"* ]]; then
        echo "$name: as it should be, $out of $requests requests told as OutOfMemory"
        passed=$((passed + 1))
    else
        printf '%s: %s\n' "$name" "$whole" "${wrong[@]:0:5}"
        failed=$((failed + 1))
    fi
done
echo "$passed passed, $failed failed"
[ "$failed" -eq 0 ]
