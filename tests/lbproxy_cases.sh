#!/bin/bash
# What lbproxy does with connections and with requests of HTTP, over servers of the cases' own on the loopback: in turn and by key, stopped
# and cut backends, files that change, limits, the page and the end; refused requests and answers; and the faults of configurations. It
# takes under two minutes once lbproxy is built. A line for each case; the last line is 'N passed, M failed'. LBPROXY names another program
# than ./lbproxy.
set -euo pipefail
unset CDPATH

here=$(dirname "$(readlink -f "${BASH_SOURCE[0]}")")
lbproxy=${LBPROXY:-$here/../lbproxy}
command -v python3 >/dev/null || { echo "python3 isn't there"; echo "0 passed, 1 failed"; exit 1; }
[ -n "${LBPROXY-}" ] || "$lbproxy" --prove
export PYTHONDONTWRITEBYTECODE=1
said=$(mktemp -d)
trap 'rm -rf "$said"' EXIT
status=0
for cases in lbproxy_cases lbproxy_http_cases; do
    ended=0
    timeout 180 python3 "$here/$cases.py" "$lbproxy" | tee "$said/$cases" || ended=$?
    [ "$ended" -lt 2 ] || echo "0 passed, 1 failed" | tee -a "$said/$cases"
    [ "$ended" -eq 0 ] || status=1
done
tail -qn 1 "$said"/* | awk '{ passed += $1; failed += $3 } END { print passed + 0 " passed, " failed + 0 " failed" }'
exit "$status"
