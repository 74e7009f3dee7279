#!/usr/bin/env bash
# Starts portsd for 64 tenants (or as many as TENANTS says), and stores the same tree of 2,000 ports (PORTS)
# with 8 dependencies each for every one of them. Then each tenant in turn asks for its first list. Prints how
# long the first tenant's first list takes and how long the last one's, the same for the list again, how many
# uploads a second the first and the last tenant have, and what a DELETE of the first tenant takes before and after
# the others store theirs; and how much memory the program has after the uploads, after the first lists, and after each
# tenant has asked what reaches a port. With 64 tenants it takes some minutes.
set -euo pipefail
top=$(cd "$(dirname "$0")/.." && pwd)
source "$top/bench/ports_tree.sh"
port=${1-18081}
tenants=${TENANTS:-64}
ports=${PORTS:-2000}
work=$(mktemp -d)
server=
trap '[ -z "$server" ] || kill "$server" 2>/dev/null; rm -rf "$work"' EXIT
source "$top/bench/programs.sh" && find_portsd
make_tree "$work/tree" "$ports"
"$portsd" serve --port "$port" --turns 4294967295 $(seq -f t%g "$tenants") >"$work/said" &
server=$!
for _ in $(seq 50); do
    grep -qs '^portsd: ready$' "$work/said" && break
    sleep 0.1
done
python3 -B "$top/bench/many_client.py" "$port" "$server" "$work/tree" "$tenants"
