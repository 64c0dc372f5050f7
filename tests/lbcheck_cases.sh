#!/bin/bash
# What `lbcheck` prints and how it ends, for answers on its standard input, for arguments, and for hostile servers. Each case is run by the
# proved program, where one is there or LBCHECK names one; against a server its memory is measured too. Else it is run by `rt try`, which
# builds the program once and proves nothing (about a minute). A line for each case; the last line is 'N passed, M failed'.
set -euo pipefail
unset CDPATH

here=$(dirname "$(readlink -f "${BASH_SOURCE[0]}")")
room=$(mktemp -d)
stop_all() {
    exec 7>&-
    wait
    rm -rf "$room"
}
trap stop_all EXIT
cases=$room/cases
mkdir "$cases"
names=()
statuses=()

# NAME STATUS OUTPUT STREAM ARGUMENT..: with these arguments and the stream on standard input lbcheck prints the output and
# ends with the status. STREAM and OUTPUT are written by printf's '%b'; an empty OUTPUT says that standard output stays empty.
asked() {
    names+=("$1")
    statuses+=("$2")
    printf '%b' "$3" >"$cases/$1.stdout"
    printf '%b' "$4" >"$cases/$1"
    printf '%s\n' "${@:5}" >"$cases/$1.args"
}

sized='HTTP/1.1 200 OK\r\nContent-Length: 2\r\n\r\nok'
chunked='HTTP/1.1 200 OK\r\nTransfer-Encoding: chunked\r\n\r\n2\r\nok\r\n0\r\n\r\n'
absent='HTTP/1.1 204 No Content\r\n\r\n'

asked whole 0 'ok unread 0\n' "$sized" replay
asked byte-behind 0 'ok unread 1\n' "${sized}X" replay
asked cut 1 'EndInMessage unread 0\n' "${sized%?}" replay
asked nothing 1 'EndInMessage unread 0\n' '' replay
asked chunks 0 'ok unread 1\n' "${chunked}X" replay
asked chunks-cut 1 'EndInMessage unread 0\n' "${chunked%????}" replay
asked bare-feed 1 'BadFraming unread 2\n' 'HTTP/1.1 200 OK\r\nTransfer-Encoding: chunked\r\n\r\n2\nok' replay
asked no-head 1 'BadHead unread 2\n' 'nothing\nof' replay
asked interim 1 'Interim unread 4\n' 'HTTP/1.1 100 Continue\r\n\r\nmore' replay
asked another-status 1 'Status 204 unread 0\n' "$absent" replay
asked accepted 0 'ok unread 0\n' "$absent" replay --accept 204
asked rejected 1 'Rejected unread 2\n' "$sized" replay --accept 204
asked head-alone 0 'ok unread 2\n' "$sized" replay --method HEAD
asked at-the-limit 0 'ok unread 0\n' "$sized" replay --max-body 2
asked past-the-limit 1 'BodyTooLarge unread 2\n' "$sized" replay --max-body 1
asked two-framings 1 'BadFraming unread 2\n' 'HTTP/1.1 200 OK\r\nTransfer-Encoding: chunked\r\nContent-Length: 2\r\n\r\nok' replay
asked nobody-there 1 'Connect: no connection could be made within the limit\n' '' tcp 127.0.0.1:1
asked nobody-asked 1 'Connect: no connection could be made within the limit\n' '' http 127.0.0.1:1 --timeout 100
asked no-socket 1 'Connect: no connection could be made within the limit\n' '' http unix:/there/is/none
asked no-command 2 '' '' status
asked no-address 2 '' '' tcp
asked a-name 2 '' '' tcp localhost:80
asked no-number 2 '' '' replay --max-body many
asked no-status 2 '' '' replay --accept 99
asked no-method 2 '' '' replay --method 'G T'
asked no-path 2 '' '' http 127.0.0.1:1 --path index
asked no-host 2 '' '' http 127.0.0.1:1 --host $'h\x01'
asked no-field 2 '' '' http 127.0.0.1:1 --header 'name value'
asked no-port 2 '' '' http 127.0.0.1:1 --port 65536
asked help 0 "Checks a backend as a load balancer would: it prints 'ok' or a fault, and ends with status 0 or 1

Usage: lbcheck <COMMAND>

Commands:
  tcp     Connects to a backend, and no more
  http    Sends a request to a backend and reads its answer
  replay  Checks an answer that stands on standard input
  help    Print this message or the help of the given subcommand(s)

Options:
  -h, --help  Print help
" '' --help
asked help-of-http 0 "Sends a request to a backend and reads its answer

Usage: lbcheck http [OPTIONS] <ADDR>

Arguments:
  <ADDR>  An address as 10.0.0.1:80 or [2001:db8::1]:80, or unix: and the path of a socket

Options:
      --host <HOST>         The host that is asked, else the address
      --path <PATH>         The path that is asked for, else /
      --method <METHOD>     The method of the request, else GET
      --header <FIELD>      A field 'NAME: VALUE' more; may be given again
      --accept <STATUS>     The one status that is accepted, else 200
      --max-body <BYTES>    The most bytes of a body, else 1048576
      --timeout <MS>        How long to wait to connect, for a read and for a write, else 1000, and any time for a write
      --total-timeout <MS>  How long the whole check may take, else 10000
      --port <PORT>         The port that is checked, else the address's
  -h, --help                Print help
" '' http --help

# The hostile servers end with their standard input, which this shell holds.
notes=$room/notes
mkfifo "$room/held"
python3 "$here/hostile_servers.py" <"$room/held" >"$notes" &
exec 7>"$room/held"
for try in $(seq 100); do
    ! grep -q '^full at ' "$notes" || break
    sleep 0.1
done

# SERVER: its address.
at() { sed -n "s/^$1 at /127.0.0.1:/p" "$notes"; }

# NAME SERVER SECONDS STATUS LINE ARGUMENT..: of that server lbcheck says the line and ends with the status, within the seconds.
against() {
    within[${#names[@]}]=$3
    server[${#names[@]}]=$2
    asked "$1" "$4" "$5\n" '' "$6" "$(at "$2")" "${@:7}"
}
within=()
server=()
unread='Read: nothing more could be read within the limit'
unmade='Connect: no connection could be made within the limit'
large='HeadTooLarge: 65536 bytes came and the head of the answer was not whole'

against drip drip 4 1 "$unread" http --total-timeout 2000
against reset reset 3 1 "$unread" http
against long-field long_field 3 1 "$large" http --total-timeout 50000
against many-fields many_fields 3 1 'BadHead: what came is no head of an answer, or has more than 64 fields' http
against empty-lines empty_lines 3 1 "$large" http --total-timeout 50000
against early early 3 0 ok http
against full full 3 1 "$unmade" tcp
against full-short full 2 1 "$unmade" http --timeout 300
against full-in-all full 2 1 "$unmade" http --timeout 60000 --total-timeout 300

said=$room/said
passed=0
failed=0

# FOLDER: runs its cases by a trial build; what servers noted before counts no more.
try_cases() {
    noted=$(wc -l <"$notes")
    (cd "$here/../crates/lbcheck" && rt try --cases "$1") >"$said" 2>&1 || true
}

# Whether the server's connection lasted no longer than the case may; one that takes no connection notes none. A trial build takes
# many times as long over 65536 bytes.
in_time() {
    local took most
    [ -n "${within[$1]-}" ] || return 0
    most=${within[$1]}
    [ "${names[$1]}" != long-field ] && [ "${names[$1]}" != empty-lines ] || most=60
    took=$(tail -n "+$((noted + 1))" "$notes" | sed -n "s/^${server[$1]} took //p" | head -n 1)
    awk -v took="${took:-0}" -v most="$most" 'BEGIN { exit !(took <= most) }'
}

# NUMBER WHICH: counts the case where it went as it should, and says so, with what try it was.
is_right() {
    local name=${names[$1]}
    grep -q "^case=$name run=ended status=${statuses[$1]} .*output=expected" "$said" && in_time "$1" || return 1
    echo "$name: as it should be$2"
    passed=$((passed + 1))
}

# NUMBER: says how the case went, which isn't as it should.
tell_wrong() {
    local name=${names[$1]}
    echo "$name: not with status ${statuses[$1]} and the output $(cat "$cases/$name.stdout")"
    grep "^case=$name " "$said" || tail -n 5 "$said"
    [ -z "${within[$1]-}" ] || grep "^${server[$1]} took" "$notes" || true
}

# Runs all cases by a trial build.
by_trial() {
    local number again=()
    try_cases "$cases"
    for number in "${!names[@]}"; do
        is_right "$number" '' && continue
        tell_wrong "$number"
        if [ -n "${within[number]-}" ]; then
            again+=("$number")
        else
            failed=$((failed + 1))
        fi
    done
    [ "${#again[@]}" -gt 0 ] || return 0
    # A case against a server has limits on time, and a busy machine may have been late: it is tried once more, without the others.
    mkdir "$room/again"
    for number in "${again[@]}"; do
        cp "$cases/${names[number]}" "$cases/${names[number]}".* "$room/again"
    done
    try_cases "$room/again"
    for number in "${again[@]}"; do
        is_right "$number" ', at the second try' && continue
        tell_wrong "$number"
        failed=$((failed + 1))
    done
}

# The proved program, if there is one that is newer than its sources.
proved() {
    (
        name=lbcheck
        top=$here/..
        . "$top/launcher.sh"
        add_crates lbcheck
        is_due || echo "$program"
    )
}

# NUMBER: runs the case by the proved program, and notes status, milliseconds, and the most resident memory in KiB that was seen.
measure() {
    local start most=0 now status=0 pid arguments name=${names[$1]}
    mapfile -t arguments <"$cases/$name.args"
    start=$(date +%s%N)
    "$program" "${arguments[@]}" >"$room/$name.output" 2>"$room/$name.faults" <"$cases/$name" &
    pid=$!
    while [ -n "${within[$1]-}" ] && [ -e "/proc/$pid/status" ]; do
        now=$(sed -n 's/^VmHWM:[^0-9]*\([0-9]*\) kB$/\1/p' "/proc/$pid/status" 2>/dev/null) || true
        [ -n "$now" ] || break
        most=$now
        sleep 0.01
    done
    wait "$pid" || status=$?
    echo "$status $((($(date +%s%N) - start) / 1000000)) $most" >"$room/$name.measured"
}

# The most resident memory that lbcheck may have, in KiB.
most_memory=8192

# NUMBER WHICH: counts the case where the proved program did as it should, and says what was measured, with what try it was. Against a
# server it says nothing on standard error.
is_measured_right() {
    local name=${names[$1]} status took memory limits=true what=
    read -r status took memory <"$room/$name.measured"
    if [ -n "${within[$1]-}" ]; then
        what=" ($took ms, $memory KiB)"
        [ "$took" -le $((within[$1] * 1000)) ] && [ "$memory" -gt 0 ] && [ "$memory" -lt "$most_memory" ] &&
            [ ! -s "$room/$name.faults" ] || limits=false
    fi
    if $limits && [ "$status" -eq "${statuses[$1]}" ] && cmp -s "$room/$name.output" "$cases/$name.stdout"; then
        echo "$name: as it should be$what$2"
        passed=$((passed + 1))
    else
        echo "$name: status $status, $took ms, $memory KiB, said: $(cat "$room/$name.output" "$room/$name.faults")"
        return 1
    fi
}

# Runs all cases by the proved program: those against servers at once, and one that fails there once more, without the others.
by_program() {
    local number measuring=()
    for number in "${!within[@]}"; do
        measure "$number" &
        measuring+=("$!")
    done
    wait "${measuring[@]}"
    for number in "${!names[@]}"; do
        [ -n "${within[number]-}" ] || measure "$number"
        is_measured_right "$number" '' && continue
        if [ -n "${within[number]-}" ]; then
            measure "$number"
            is_measured_right "$number" ', at the second try' && continue
        fi
        failed=$((failed + 1))
    done
}

program=${LBCHECK:-$(proved)}
if [ -x "$program" ]; then
    by_program
else
    by_trial
    echo "memory: not measured, since no proved lbcheck is there"
fi
echo "$passed passed, $failed failed"
[ "$failed" -eq 0 ]
