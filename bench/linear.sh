#!/usr/bin/env bash
# Shows that the time for a makefile, and for a script, grows with its size: times for sizes n, 2n and
# 4n. Prints three lines for each, size and seconds; each should be about twice the one before.
set -eu
top=$(cd "$(dirname "$0")/.." && pwd)
work=$(mktemp -d)
trap 'rm -rf "$work"' EXIT
source "$top/bench/programs.sh" && find_portsd
source "$top/bench/makefile_scripts.sh"

# seconds FILE: of the best of three runs of the script
seconds() {
    for _ in 1 2 3; do
        local from to
        from=$(date +%s%N)
        "$portsd" replay alpha <"$1" >"$work/out"
        to=$(date +%s%N)
        echo $(((to - from) / 1000))
    done | sort -n | head -1 | awk '{ printf "%.3f", $1 / 1000000 }'
}

# A file of one-letter assignments of so many bytes.
makefile() {
    awk -v n=$(($1 / 4)) 'BEGIN { for (i = 0; i < n; i++) printf "%c=x\n", 97 + i % 26 }'
}

lines_script() {
    echo "open 0"
    awk -v n="$1" 'BEGIN { for (i = 1; i < n; i++) print "turn 0" }'
}

echo "a makefile of so many bytes, stored and evaluated 200 times"
for bytes in 16384 32768 65536; do
    makefile $bytes >"$work/makefile"
    evaluations "$work/makefile" 200 a >"$work/script"
    echo "$bytes bytes  $(seconds "$work/script") s"
done
echo "a script of so many lines"
for lines in 50000 100000 200000; do
    lines_script $lines >"$work/script"
    echo "$lines lines  $(seconds "$work/script") s"
done
