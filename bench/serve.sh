#!/usr/bin/env bash
# Prints what portsd answers over a socket, in four parts. PARTS names those that are run, else all of them are.
# - uploads: how many uploads of 1 kB and how many questions for a variable are answered a second over one connection,
#   for 2,000 ports of one tenant, and for 100 of each of 63 more; how long a request takes after idle time; and which
#   share of a core an idle server uses.
# - lists: how long a first list of 2,000 ports takes when nobody else asks, beside the same list by `replay`; how long
#   a question of one tenant takes while another tenant's list is computed, and how long that list takes then.
# - kinds: for a tree of 2,000 ports (or as many as PORTS says) with 8 dependencies each, how many questions and uploads
#   of each kind portsd answers a second over one connection, how many a plain server (plain_index.rs, built by
#   rustc), and the ratio. The bodies of both are compared before that.
# - calls: how many system calls a turn of that tree's first list takes with 15 idle clients, if there is strace.
# If COUNT is `instructions`, valgrind counts the instructions of a variable, a port and an upload in place of all this.
# Takes three minutes once the program is built.
set -euo pipefail
top=$(cd "$(dirname "$0")/.." && pwd)
source "$top/bench/ports_tree.sh"
source "$top/bench/tree_scripts.sh"
port=${1-18080}
ports=${PORTS:-2000}
times=${TIMES:-100}
count=${COUNT:-time}
work=$(mktemp -d)
servers=()
source "$top/bench/programs.sh" && find_portsd

launch() { # launch COMMAND..: starts a server, and waits until it is ready
    : >"$work/said"
    "$@" >>"$work/said" &
    server=$!
    servers+=("$server")
    until grep -q ': ready$' "$work/said"; do
        kill -0 "$server"
        sleep 0.1
    done
}

start() { # start KEY..: starts portsd for these keys
    launch "$portsd" serve --port "$port" --turns 4294967295 "$@"
}

stop() {
    kill "${servers[@]}" 2>/dev/null || true
    wait "${servers[@]}" 2>/dev/null || true
    servers=()
}
trap 'stop; rm -rf "$work"' EXIT

rounds=5
replayed() { # replayed SCRIPT: the milliseconds of processor time of a run, the best of some
    local round TIMEFORMAT='%U %S'
    for round in $(seq $rounds); do
        { time "$portsd" replay alpha <"$1" >"$work/out"; } 2>&1 | awk '{ print ($1 + $2) * 1000 }'
    done | sort -n | head -1
}

best() { # best FILE PLACE: the least number at that place of a line
    awk -v place="$2" '{ print $place }' "$work/$1" | sort -n | head -1
}

uploads() {
    start alpha $(seq -f t%g 63)
    python3 -B "$top/bench/serve_client.py" "$port" "$server"
    stop
}

lists() {
    for _ in $(seq $rounds); do
        start alpha beta gamma
        python3 -B "$top/bench/turns_client.py" "$port" "$server" "$work"
        stop
    done
    awk -v replayed="$(($(replayed "$work/list") - $(replayed "$work/stored")))" -v ran="$(best alone 2)" \
        -v clock="$(best alone 1)" -v beside_ran="$(best beside 2)" -v beside="$(best beside 1)" 'BEGIN {
        printf "the first list of 2,000 ports: processor %d ms by replay, %d ms served, ratio %.2f; by the clock %d ms\n", \
            replayed, ran, ran / replayed, clock
        printf "beside the questions, with these: processor %d ms, by the clock %d ms\n", beside_ran, beside }'
}

both() { # both WORD..: what the client does with a portsd and a plain server, neither of which has a file yet
    start alpha
    launch "$work/plain_index" --serve $((port + 1)) alpha
    python3 -B "$top/bench/index_client.py" "$@" "$port" $((port + 1))
    stop
}

kinds() {
    rustc -O -o "$work/plain_index" "$top/bench/plain_index.rs"
    both compare "$work/tree"
    for _ in 1 2 3; do
        both measure "$work/tree" "$times" >>"$work/rates"
    done
    echo "a tree of $ports ports: portsd a second, the plain server a second, the best of three each, and the ratio"
    awk '{
            kind = $0
            sub(/^[^ ]* [^ ]* /, "", kind)
            if (!(kind in ours)) order[++many] = kind
            if ($1 > ours[kind]) ours[kind] = $1
            if ($2 > plain[kind]) plain[kind] = $2
        }
        END {
            for (at = 1; at <= many; at++) {
                kind = order[at]
                printf "    %-24s %10.1f %10.1f %8.2f\n", kind, ours[kind], plain[kind], plain[kind] / ours[kind]
            }
        }' "$work/rates"
}

calls() {
    if ! command -v strace >/dev/null; then
        echo "system calls aren't counted: there is no strace"
        return
    fi
    start alpha
    python3 -B "$top/bench/index_client.py" calls "$work/tree" "$port" "$server"
    stop
}

asks_port() { get "/v1/port?path=category0/port0" 2; }

# Each number is the difference of two scripts, one of which has the thing counted besides, so many times.
instructions() {
    local variable='/v1/var?path=category0/port0&name=DISTNAME' kind before
    { puts "$work/tree" && get /v1/list $((ports + 1)) && get "$variable" 2 && asks_port; } >"$work/warm"
    { cat "$work/warm" && repeat "$times" asks "$variable"; } >"$work/variable"
    { cat "$work/warm" && repeat "$times" asks_port; } >"$work/port"
    { cat "$work/warm" && repeat "$times" uploads_one "$ports"; } >"$work/upload"
    before=$(run "$work/warm")
    for kind in variable port upload; do
        awk -v whole="$(run "$work/$kind")" -v before="$before" -v times="$times" -v kind="$kind" 'BEGIN {
            printf "    %-24s %9.3f million instructions\n", kind, (whole - before) / times / 1000000 }'
    done
}

make_tree "$work/tree" "$ports"
if [ "$count" = instructions ]; then
    instructions
    exit
fi
for part in ${PARTS:-uploads lists kinds calls}; do
    "$part"
done
