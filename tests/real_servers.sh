#!/bin/bash
# What `lbcheck` says of real servers: nginx, and haproxy with nginx behind it, each where it is installed. They run on free
# ports of the own loopback, in a folder of their own, and are ended with the script. Without both there is nothing to try.
# A line for each case; the last line is 'N passed, M failed'. LBCHECK names another program than ./lbcheck.
set -euo pipefail
unset CDPATH

here=$(dirname "$(readlink -f "${BASH_SOURCE[0]}")")
lbcheck=${LBCHECK:-$here/../lbcheck}
room=$(mktemp -d)
servers=()
passed=0
failed=0

stop_all() {
    local server
    for server in "${servers[@]}"; do kill "$server" 2>/dev/null && wait "$server" 2>/dev/null || true; done
    rm -rf "$room"
}
trap stop_all EXIT

# A port of the own loopback where nobody listens.
free_port() {
    local port
    while true; do
        port=$((20000 + RANDOM % 12000))
        (exec 3<>"/dev/tcp/127.0.0.1/$port") 2>/dev/null || { echo "$port"; return; }
    done
}

# NAME STATUS LINE ARGUMENT..: lbcheck prints a line that begins so, and ends with the status.
says() {
    local said status=0
    said=$("$lbcheck" "${@:4}" 2>&1) || status=$?
    if [ "$status" -eq "$2" ] && [[ $said == "$3"* ]]; then
        echo "$1: as it should be"
        passed=$((passed + 1))
    else
        printf '%s: status %s, said:\n%s\n' "$1" "$status" "$said"
        failed=$((failed + 1))
    fi
}

# Starts a server and waits up to five seconds until it takes connections. ADDRESS COMMAND..
serve() {
    local try
    "${@:2}" >>"$room/log" 2>&1 &
    servers+=("$!")
    for try in $(seq 50); do
        ! "$lbcheck" tcp "$1" >/dev/null 2>&1 || return 0
        sleep 0.1
    done
    cat "$room/log" >&2
    return 1
}

# Ends the server that was started last.
end_last() {
    kill "${servers[-1]}"
    wait "${servers[-1]}" 2>/dev/null || true
    unset 'servers[-1]'
}

# SERVER ADDRESS ARGUMENT..: the cases of any server that has these pages.
pages() {
    says "$1: connects" 0 'ok' tcp "$2"
    says "$1: a page with a length" 0 'ok' http "$2" --path /page.html
    says "$1: a page in chunks" 0 'ok' http "$2" --path /chunks.shtml
    says "$1: a large page" 0 'ok' http "$2" --path /large
    says "$1: a page above the limit" 1 'BodyTooLarge: ' http "$2" --path /large --max-body 1048575
    says "$1: a page in chunks above the limit" 1 'BodyTooLarge: ' http "$2" --path /chunks.shtml --max-body 3
    says "$1: no page" 1 'Status 404: ' http "$2" --path /none
    says "$1: no page, as it is wanted" 0 'ok' http "$2" --path /none --accept 404
    says "$1: a page, and 404 wanted" 1 'Rejected: ' http "$2" --path /page.html --accept 404
    says "$1: the head alone" 0 'ok' http "$2" --path /page.html --method HEAD
    says "$1: the head of no page" 1 'Status 404: ' http "$2" --path /none --method HEAD
    says "$1: by its host" 1 'Status 403: ' http "$2" --path /page.html --host forbidden
    says "$1: by a field" 1 'Status 418: ' http "$2" --path /page.html --header 'X-Teapot: yes'
}

command -v nginx >/dev/null || { echo "nginx isn't installed: nothing to try"; exit 0; }
[ -n "${LBCHECK-}" ] || "$lbcheck" --prove
chmod 755 "$room"
mkdir "$room/pages"
echo 'a page' >"$room/pages/page.html"
echo '<!--#echo var="DATE_GMT" --> in chunks' >"$room/pages/chunks.shtml"
head -c 1048576 /dev/zero >"$room/pages/large"
port=$(free_port)
cat >"$room/nginx.conf" <<END
daemon off;
worker_processes 1;
pid $room/nginx.pid;
error_log $room/nginx.log;
events { }
http {
    access_log off;
    client_body_temp_path $room/body;
    proxy_temp_path $room/proxy;
    fastcgi_temp_path $room/fastcgi;
    uwsgi_temp_path $room/uwsgi;
    scgi_temp_path $room/scgi;
    server {
        listen 127.0.0.1:$port;
        listen unix:$room/nginx.sock;
        root $room/pages;
        ssi on;
        if (\$host = forbidden) { return 403; }
        if (\$http_x_teapot) { return 418; }
    }
}
END
serve "127.0.0.1:$port" nginx -p "$room" -c "$room/nginx.conf"
pages nginx "127.0.0.1:$port"
pages 'nginx, a Unix socket' "unix:$room/nginx.sock"
says 'nginx: by another port' 0 'ok' http 127.0.0.1:1 --port "$port" --path /page.html

if command -v haproxy >/dev/null; then
    front=$(free_port)
    cat >"$room/haproxy.cfg" <<END
defaults
    mode http
    timeout connect 2s
    timeout client 2s
    timeout server 2s
frontend front
    bind 127.0.0.1:$front
    default_backend back
backend back
    server nginx 127.0.0.1:$port
END
    serve "127.0.0.1:$front" haproxy -db -f "$room/haproxy.cfg"
    pages haproxy "127.0.0.1:$front"
    end_last
    says 'haproxy, stopped' 1 'Connect: ' http "127.0.0.1:$front"
else
    echo "haproxy isn't installed: not tried"
fi
end_last
says 'nginx, stopped' 1 'Connect: ' tcp "127.0.0.1:$port"
says 'nginx, stopped, a Unix socket' 1 'Connect: ' http "unix:$room/nginx.sock"

echo "$passed passed, $failed failed"
[ "$failed" -eq 0 ]
