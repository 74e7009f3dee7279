#!/usr/bin/env bash
# Uploads hostile texts and asks portsd for what they mean, and prints for each the statuses, the seconds and the
# peak memory of the run.
set -euo pipefail
top=$(cd "$(dirname "$0")/.." && pwd)
source "$top/bench/programs.sh" && find_portsd
exec python3 -B "$top/bench/hostile.py" "$portsd" "$@"
