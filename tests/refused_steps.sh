#!/bin/bash
# Each request for memory refused in turn, of two programs: `lb_rows 0`, which runs scripts over a world a step at a time, and calls of a
# plain balancer, group and registry; and `lb_soak refused`, calls of a registry, view, balancer and group that threads may share, and
# passes of checks. A step or a call that was refused for memory is given again, and so is a build that failed for it, as soon as it is
# due; each answer has to be that of the script or of the call's row. The C library's calls are refused by refuse.c, which is compiled here
# by `cc`. A line for each script and each kind of calls; the last line is 'N passed, M failed'.
# LBROWS and LBSOAK name other programs than those that `rt run` builds here; with an argument, `lb_rows` or `lb_soak`, only that one runs.
set -euo pipefail
unset CDPATH

here=$(dirname "$(readlink -f "${BASH_SOURCE[0]}")")
crates=$here/../crates
room=$(mktemp -d)
trap 'rm -rf "$room"' EXIT

# CRATE: builds its program. It is run there too, without its files, and may end with status 1.
build() {
    (cd "$crates/$1" && rt check && { rt run || true; }) >/dev/null 2>&1 || { echo "$1 isn't proved" >&2; exit 2; }
}
# CRATE OTHER: its program, or that other one.
program_of() {
    [ -n "$2" ] || build "$1"
    readlink -f "${2:-$crates/$1/out/$1}"
}
cc -O1 -shared -fPIC -o "$room/refuse.so" "$here/refuse.c"

# N PROGRAM WORD: what the program says and its status, the Nth request refused.
refused() {
    local status=0
    (cd "$crates/lb_rows/data" && env -i REFUSED="$1" COUNTED="$room/counted" LD_PRELOAD="$room/refuse.so" "$2" "$3") 2>&1 || status=$?
    echo "status $status"
}

passed=0
failed=0
judge() {
    echo "$1: ${2:-as it should be}"
    if [ -z "$2" ]; then
        passed=$((passed + 1))
    else
        failed=$((failed + 1))
    fi
}

# PROGRAM WORD: refuses each of its requests in turn, and judges each name that it says.
refuse_each() {
    local requests number names own said lines verdict odd name again which
    # A thread takes memory for itself, or takes over that of one that has ended: so the requests are counted in several runs.
    requests=0
    for number in 1 2 3 4 5; do
        names=$(refused 0 "$1" "$2" | sed -n 's/, a step at a time: as it should be$//p')
        [ "$(cat "$room/counted")" -le "$requests" ] || requests=$(cat "$room/counted")
    done
    # Where memory is refused for the words of the command line, the program says so and ends.
    own=0
    for number in $(seq "$requests"); do
        said=$(refused "$number" "$1" "$2")
        if [ "$said" = $'Error: out of memory\nstatus 1' ]; then
            own=$((own + 1))
        else
            sed "s/^/$number: /" <<<"$said"
        fi
    done >"$room/said"
    lines=$((($(wc -l <<<"$names") + 1) * (requests - own)))
    verdict=
    [ -n "$names" ] && [ "$own" -lt 10 ] && [ "$(wc -l <"$room/said")" -eq "$lines" ] || verdict='there are other lines'
    odd=$(grep -vE ': status 0$|: as it should be$' "$room/said" | head -n 5 || true)
    judge "$requests requests of ${1##*/} $2, $own of them for its words" "$verdict$odd"
    while read -r name; do
        again=$(sed -n "s/^[0-9]*: $name, \(.*\) given again: as it should be$/\1/p" "$room/said")
        verdict=
        [ -n "$again" ] || verdict='none of its own was refused'
        which=$(grep -o '[0-9]*' <<<"$again" | sort -nu | tr '\n' ' ')
        judge "$name, $(wc -l <<<"$again") of them its own, in the lines or calls ${which% }" "$verdict"
    done <<<"$names"
}

if [ "${1:-lb_rows}" = lb_rows ]; then
    program=$(program_of lb_rows "${LBROWS-}")
    refuse_each "$program" 0
fi
if [ "${1:-lb_soak}" = lb_soak ]; then
    program=$(program_of lb_soak "${LBSOAK-}")
    refuse_each "$program" refused
fi
echo "$passed passed, $failed failed"
[ "$failed" -eq 0 ]
