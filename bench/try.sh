#!/usr/bin/env bash
# Shows that ./try serves in a clean clone: it clones this checkout, starts ./try serve there, asks the two questions of
# README, uploads 300 files with clients/ports, and ends the server by SIGINT and another one by SIGTERM. Each
# has to be gone then, with every process that it started, and the port has to be free. At last a port that is taken
# has to be reported as ./run reports it. Takes some six minutes.
set -euo pipefail
top=$(cd "$(dirname "$0")/.." && pwd)
port=${1-18084}
work=$(mktemp -d)
server=''
trap '[ -z "$server" ] || kill "$server" 2>/dev/null || true; rm -rf "$work"' EXIT

fail() { echo "bench/try.sh: $*" >&2; exit 1; }

answers() { (: <>"/dev/tcp/127.0.0.1/$port") 2>/dev/null; }

# Starts a server in the clone, and waits for it to say that it is ready. A script's jobs ignore SIGINT, so it is
# given back.
start() {
    SECONDS=0
    TRIED_IN=$work env --default-signal=INT "$work/clone/try" serve --port "$port" --turns 4294967295 alpha beta 2>"$work/said" &
    server=$!
    until grep -q '^\./try: ready' "$work/said"; do
        kill -0 "$server" 2>/dev/null || fail "the server ended: $(cat "$work/said")"
        sleep 1
    done
    echo "ready after $SECONDS seconds"
}

# Ends the server by a signal, and looks for what it left: its processes have the mark in their environment.
end_by() {
    local status=0 left
    kill "-$1" "$server"
    wait "$server" || status=$?
    server=''
    sleep 1
    left=$(grep -l -F -z "TRIED_IN=$work" /proc/[0-9]*/environ 2>/dev/null || true)
    [ -z "$left" ] || fail "after $1 there is still: $left"
    ! answers || fail "after $1 the port still answers"
    echo "ended by $1 with status $status: no process left, and the port is free"
}

answered() { # answered WANTED ARGUMENT..: what curl prints has to be this
    local wanted=$1 given
    shift
    given=$(curl -sS -H 'X-Ports-Key: alpha' "$@")
    [ "$given" = "$wanted" ] || fail "$* is answered $given"
    echo "$given"
}

git clone -q "$top" "$work/clone"
for n in $(seq 300); do
    mkdir -p "$work/tree/c$((n % 10))/p$n"
    printf 'DISTNAME = p%d-1.0\n.include <bsd.port.mk>\n' "$n" >"$work/tree/c$((n % 10))/p$n/Makefile"
done
printf 'V = 9.1\nDISTNAME = vim-${V}\n' >"$work/Makefile"
start
host=http://127.0.0.1:$port
answered '{"stored":true}' -X PUT --data-binary "@$work/Makefile" "$host/v1/file?name=/ports/editors/vim/Makefile"
answered '{"defined":true,"value":"vim-9.1"}' "$host/v1/var?path=editors/vim&name=DISTNAME"
echo "answered after $SECONDS seconds"
PORTS_SERVER=$host PORTS_KEY=alpha "$work/clone/clients/ports" load "$work/tree"
end_by INT
start
end_by TERM
python3 -m http.server --bind 127.0.0.1 "$port" >/dev/null 2>&1 &
server=$!
until answers; do sleep 0.2; done
status=0
"$work/clone/try" serve --port "$port" --turns 1 alpha 2>"$work/said" || status=$?
[ "$status" = 1 ] && grep -qx 'portsd: cannot listen' "$work/said" || fail "a port that is taken: status $status, $(cat "$work/said")"
echo "a port that is taken: portsd: cannot listen, status 1"
