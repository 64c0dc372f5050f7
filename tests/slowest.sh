#!/bin/bash
# slowest.sh [COUNT]: which functions' proofs take longest, by the times of the files that kit 13f's checker writes while it runs. Start it
# beside 'rt ci', and end it with Ctrl-C: it prints the seconds of the COUNT slowest functions (30), and how many each kind of file took:
# Lts has a function's states, Tie what its calls hand over for each bound, Layout its types, Proof and Answers the proof itself.
set -euo pipefail
count=${1:-30}
kinds='Lts|Tie|Layout|Proof|Answers|Goals|Code|Named|Reads|Kinds|Met|Statement|Carried|TheLink|Symbol|Given'
seen=$(mktemp -d)

# What was seen, as lines of seconds and file: each file took the time since the one before it of the same check.
taken() {
    local list
    for list in "$seen"/*; do
        [ -s "$list" ] || continue
        sort -n "$list" | awk 'NR > 1 { printf "%.3f %s\n", $1 - before, $2 } { before = $1 }'
    done
}

# SECONDS NAME lines, summed by name, the largest first.
summed() {
    awk '{ sum[$2] += $1 } END { for (name in sum) printf "%8.1f %s\n", sum[name], name }' | sort -rn | sed -n "1,$1p"
}

report() {
    echo
    echo "By function:"
    taken | sed -E "s/\.oantt\$//; s/^([^ ]+ )Rattle-/\1/; s/-proofs\././; s/\.($kinds)([.-].*)?\$//" | summed "$count"
    echo "By kind of file:"
    taken | sed -nE "s/^([^ ]+) .*\.($kinds)([.-].*)?\.oantt\$/\1 \2/p" | summed 8
    rm -rf "$seen"
}
trap 'report; exit 0' INT TERM

while true; do
    for folder in /tmp/rattle-logic-built-locked-*; do
        [ -d "$folder" ] || continue
        list=$seen/$(basename "$folder")
        # A folder is gone once its check has ended: the last list of it stays.
        if find "$folder" -name '*.oantt' -printf '%T@ %f\n' >"$list.new" 2>/dev/null && [ -s "$list.new" ]; then
            mv "$list.new" "$list"
        fi
        rm -f "$list.new"
    done
    sleep 5
done
