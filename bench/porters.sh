#!/usr/bin/env bash
# Runs portsd as a team does: two processes behind HAProxy with TLS (examples/haproxy.cfg), a tree of 300 ports that
# two teams load by clients/ports, and a push through the hook examples/post-receive. Each command of the client is
# asked, and what it prints is compared with the files of bench/porters/expected. Then there are 200 clients at once,
# clients that send half a request, and a process that ends and is loaded again. Prints what it did, the memory of
# the processes, and `no process is left`. If PAGES names a folder, screenshots of the page go there.
set -euo pipefail
top=$(cd "$(dirname "$0")/.." && pwd)
export LC_ALL=C.UTF-8
first=${1-18181}
many=${MANY:-2000}
work=$(mktemp -d)
pids=() a='' b=''
client=$top/clients/ports
server=https://localhost:$((first + 2))
source "$top/bench/ports_tree.sh"
source "$top/bench/programs.sh"

stop() {
    local pid
    for pid in "${pids[@]}"; do kill "$pid" 2>/dev/null || true; done
    for pid in "${pids[@]}"; do wait "$pid" 2>/dev/null || true; done
}
trap 'stop; rm -rf "$work"' EXIT

fail() {
    echo "porters.sh: $*" >&2
    exit 1
}

# Installs what is missing of Debian's packages.
install_missing() {
    local missing=() command
    for command in haproxy curl git perl openssl; do
        command -v "$command" >/dev/null || missing+=("$command")
    done
    perl -MIO::Socket::SSL -e 1 2>/dev/null || missing+=(libio-socket-ssl-perl)
    [ ${#missing[@]} -gt 0 ] || return 0
    apt-get update -qq
    DEBIAN_FRONTEND=noninteractive apt-get install -y -qq --no-install-recommends "${missing[@]}"
}

# until_answer ARGUMENT..: waits until a request by curl succeeds
until_answer() {
    for _ in $(seq 100); do
        curl -s -o "$work/answer" --cacert "$work/etc/cert.pem" "$@" && return
        sleep 0.1
    done
    fail "no server answers: $*"
}

# start NAME PORT KEY..: starts a portsd for these keys. The variable NAME has its process.
start() {
    local name=$1 port=$2
    shift 2
    "$portsd" serve --port "$port" --turns 4294967295 "$@" watch >"$work/said.$name" &
    printf -v "$name" %s "$!"
    pids+=("$!")
    until_answer "http://127.0.0.1:$port/"
}

# loaded PORT: tells HAProxy by a file that a portsd has its trees
loaded() {
    PORTS_SERVER=http://127.0.0.1:$1 as watch load "$top/bench/porters/loaded" >"$work/out"
}

# settings TEAM: writes the settings of a team for the client
settings() {
    (umask 077 && printf 'server %s\nkey %s\nca %s\n' "$server" "$1" "$work/etc/cert.pem" >"$work/$1.rc")
}

# Starts HAProxy with its example, a certificate of this run and the keys' groups.
start_haproxy() {
    openssl req -x509 -newkey rsa:2048 -nodes -days 2 -subj /CN=localhost -addext subjectAltName=DNS:localhost \
        -keyout "$work/etc/key.pem" -out "$work/etc/cert.pem" 2>/dev/null
    cat "$work/etc/cert.pem" "$work/etc/key.pem" >"$work/etc/ports.pem"
    printf '%s\n' 'alpha a' 'beta b' 'many b' >"$work/etc/keys.map"
    cp "$top/examples/browse.html" "$work/etc"
    PORTS_ETC=$work/etc PORTS_BIND=127.0.0.1:$((first + 2)) PORTS_A=127.0.0.1:$first PORTS_B=127.0.0.1:$((first + 1)) \
        haproxy -db -f "$top/examples/haproxy.cfg" >"$work/haproxy.log" 2>&1 &
    pids+=("$!")
    until_answer "$server/"
}

# as TEAM ARGUMENT..: runs the client for a team
as() {
    local team=$1
    shift
    PORTS_CONFIG=$work/$team.rc "$client" "$@"
}

asked=0
# check NAME STATUS TEAM ARGUMENT..: compares the status of the client, and what it prints, with what is expected
check() {
    local name=$1 wanted=$2 status=0
    shift 2
    as "$@" >"$work/out" 2>&1 || status=$?
    [ "$status" = "$wanted" ] || { cat "$work/out" && fail "$name: status $status in place of $wanted"; }
    compare "$name"
}

# compare NAME: compares the file `out` with what is expected
compare() {
    asked=$((asked + 1))
    diff -u "$top/bench/porters/expected/$1" "$work/out" || fail "$1 isn't what is expected"
}

resident() { # resident PROCESS: its resident memory
    awk '/^VmRSS/ { printf "%.1f MB", $2 / 1024 }' "/proc/$1/status"
}

# Loads the tree for the two teams, and compares their lists.
load() {
    local team
    echo "memory of an empty portsd: $(resident "$a")"
    for team in alpha beta; do
        check load 0 "$team" load --wait 10 "$work/tree"
        as "$team" list >"$work/list.$team"
    done
    cmp "$work/list.alpha" "$work/list.beta"
    # 289 ports of one package, 9 packages below devel, and 3 below net, under a line with heads
    [ "$(wc -l <"$work/list.alpha")" = 302 ] || fail "the list hasn't 301 packages"
    echo "memory with 300 ports and their list: $(resident "$a")"
}

# Asks each command of the client about the tree.
ask() {
    check faults 0 alpha faults
    check show 0 alpha show devel/foo HOMEPAGE NOTHING DISTNAME
    check show-nothing 1 alpha show devel/foo NOTHING
    check show-fault 2 alpha show net/bad DISTNAME
    check port 0 alpha port devel/foo
    check port-flavor 0 beta port devel/gen,static
    check port-none 1 beta port devel/none
    check list 0 alpha list category=devel 'version>=2'
    check list-none 1 alpha list category=none
    check list-bad 2 alpha list category
    check match 0 beta match 'STEM->=2'
    check match-json 0 beta match --json 'foo-*'
    check deps 0 alpha deps devel/bar
    check deps-all 0 alpha deps --depth all devel/bar
    check deps-lib 1 alpha deps --kind lib devel/gen
    check rdeps 0 alpha rdeps devel/libfoo
    check rdeps-all 0 alpha rdeps --depth all devel/libfoo
    check order 0 alpha order devel/user devel/tst
    check order-missing 2 alpha order net/cli
    check order-cycle 2 alpha order net/ring1
    check path 0 beta path /mystuff:/ports
    check profile 0 beta profile 2
    PORTS_KEY=gamma check key 2 beta list
    PORTS_SERVER=http://127.0.0.1:1 check unreachable 2 beta list
    echo "$asked answers are as expected"
}

# Makes a bare repository with the hook, and pushes a commit with a changed, a new and a removed port.
push() {
    local git=(git -C "$work/tree" -c user.name=porter -c user.email=porter@example.org)
    git init -q --bare -b main "$work/bare.git"
    "${git[@]}" init -q -b main
    "${git[@]}" add -A
    "${git[@]}" commit -qm tree
    "${git[@]}" push -q "$work/bare.git" main
    cp "$top/examples/post-receive" "$work/bare.git/hooks"
    git -C "$work/bare.git" config ports.client "$client"
    git -C "$work/bare.git" config ports.config "$work/alpha.rc"
    cp -r "$top/bench/porters/pushed/." "$work/tree"
    "${git[@]}" rm -qr devel/old
    "${git[@]}" add -A
    "${git[@]}" commit -qm 'one changed, one new, one removed'
    "${git[@]}" push -q "$work/bare.git" main 2>&1 | sed 's/^remote: //; s/ *$//' >"$work/out"
    compare pushed
    check faults-pushed 0 alpha faults
    check rdeps-pushed 0 alpha rdeps devel/libfoo
    check faults 0 beta faults
    check rdeps 0 beta rdeps devel/libfoo
    echo "a push: the hook told what is new, and the other team's tree is as it was"
}

web() { # web ARGUMENT..: asks as alpha over TLS
    curl -s --http1.1 --cacert "$work/etc/cert.pem" -H 'X-Ports-Key: alpha' "$@"
}

# status WANTED ARGUMENT..: compares the status of a reply
status() {
    local got
    got=$(web -o "$work/answer" -w '%{http_code}' "${@:2}")
    [ "$got" = "$1" ] || fail "status $got in place of $1: ${*:2}"
}

# 200 clients at once, each over a connection of its own, with 2,000 questions together.
ask_at_once() {
    local begin=$EPOCHREALTIME
    web -Z --parallel-immediate --parallel-max 200 -o "$work/answer" -w '%{http_code}\n' \
        "$server/v1/var?path=devel/foo&name=DISTNAME&question=[1-2000]" >"$work/codes" 2>"$work/progress" ||
        fail "a client got an error: $(tail -c 500 "$work/progress")"
    [ "$(sort "$work/codes" | uniq -c | tr -s ' ')" = ' 2000 200' ] || fail "not every question was answered"
    awk -v begin="$begin" -v end="$EPOCHREALTIME" \
        'BEGIN { printf "200 clients at once: 2,000 questions, no error, %.1f s\n", end - begin }'
}

# What clients do that portsd doesn't take by itself.
ask_oddly() {
    status 200 -I "$server/v1/faults"
    status 411 -T - "$server/v1/file?name=/ports/x/y/Makefile" <<<'A = 1'
    status 411 --http2 -T - "$server/v1/file?name=/ports/x/y/Makefile" <<<'A = 1'
    status 404 "$server/elsewhere"
    status 403 -H 'X-Ports-Key: beta' "$server/v1/faults"
    status 200 "$server/"
    echo "HEAD is answered, and an upload without length gets 411"
}

# Clients that send half a head or half a body are cut off, and others are answered meanwhile.
stall() {
    local stalled begin
    perl "$top/bench/porters/stall.pl" localhost $((first + 2)) "$work/etc/cert.pem" 40 >"$work/stalled" &
    stalled=$!
    pids+=("$stalled")
    sleep 2
    begin=$EPOCHREALTIME
    status 200 "$server/v1/faults"
    awk -v begin="$begin" -v end="$EPOCHREALTIME" 'BEGIN { exit end - begin > 2 }' || fail "a question waited for stalled clients"
    wait "$stalled" || fail "a stalled client wasn't cut off: $(cat "$work/stalled")"
    cat "$work/stalled"
}

# A process that ends: its team is told so until it is started and loaded again, and the other is served.
restart() {
    as alpha list >"$work/before"
    kill "$a"
    wait "$a" 2>/dev/null || true
    check down 2 alpha list
    check faults 0 beta faults
    start a "$first" alpha
    PORTS_SERVER=http://127.0.0.1:$first as alpha load "$work/tree" >"$work/out"
    check down 2 alpha list
    loaded "$first"
    until_answer -f -H 'X-Ports-Key: alpha' "$server/v1/faults"
    as alpha list >"$work/out"
    cmp "$work/before" "$work/out"
    echo "a process that ended is started and loaded again, and its list is the same"
}

# A third team has more ports on the second process.
load_many() {
    local begin before
    make_tree "$work/many" "$many"
    before=$(resident "$b") begin=$EPOCHREALTIME
    as many load "$work/many/ports"
    awk -v begin="$begin" -v end="$EPOCHREALTIME" 'BEGIN { printf "loaded in %.1f s\n", end - begin }'
    as many list >"$work/out"
    [ "$(wc -l <"$work/out")" = $((many + 1)) ] || fail "the list hasn't $many packages"
    echo "memory of a portsd with 300 ports: $before; with $many more and their list: $(resident "$b")"
}

# The page, by a browser without a window.
browse() {
    [ -n "${PAGES:-}" ] || return 0
    command -v chromedriver >/dev/null || fail "PAGES needs chromium and chromium-driver"
    python3 -B "$top/bench/porters_page.py" "$server" $((first + 3)) "$PAGES" "$many"
}

install_missing
find_portsd
mkdir "$work/etc"
make_tree "$work/generated" 289
cp -r "$top/bench/porters/tree" "$work/tree"
cp -r "$work/generated/ports/." "$work/tree"
for team in alpha beta many watch; do settings "$team"; done
start a "$first" alpha
start b $((first + 1)) beta many
loaded "$first"
loaded $((first + 1))
start_haproxy
load
ask
push
ask_at_once
ask_oddly
stall
restart
load_many
browse
stop
for pid in "${pids[@]}"; do
    kill -0 "$pid" 2>/dev/null && fail "process $pid is left"
done
echo "no process is left"
