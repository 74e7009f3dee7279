#!/usr/bin/env bash
# Prints how many questions for a variable and for a port portsd answers a second over one connection, of ports
# whose evaluation takes 200 lines: asked for the first time, asked again, and asked by a tenant with the same
# files. Then it prints how much memory 1,024 kept evaluations take, each of which reads 8 files.
set -euo pipefail
top=$(cd "$(dirname "$0")/.." && pwd)
port=${1-18082}
work=$(mktemp -d)
source "$top/bench/programs.sh" && find_portsd
"$portsd" serve --port "$port" --turns 4294967295 alpha beta gamma >"$work/said" &
server=$!
trap 'kill $server 2>/dev/null; rm -rf "$work"' EXIT
for _ in $(seq 50); do
    grep -q '^portsd: ready$' "$work/said" && break
    sleep 0.1
done
python3 "$top/bench/shared_client.py" "$port" "$server"
