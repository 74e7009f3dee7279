#!/usr/bin/env bash
# Compares the time that portsd takes for makefiles with that of a plain program (plain_make.rs, built by
# rustc): a file whose one line spends 49,984 references, and files of 65,536 bytes of assignments. Each
# is evaluated so many times; prints both times and the ratio. portsd's time is without storing the files.
set -eu
top=$(cd "$(dirname "$0")/.." && pwd)
work=$(mktemp -d)
trap 'rm -rf "$work"' EXIT
source "$top/bench/programs.sh" && find_portsd
source "$top/bench/makefile_scripts.sh"
rustc -O -o "$work/plain_make" "$top/bench/plain_make.rs"

# seconds INPUT COMMAND..: of the best of five runs with this input
seconds() {
    local input=$1 from to
    shift
    for _ in 1 2 3 4 5; do
        from=$(date +%s%N)
        "$@" <"$input" >"$work/out"
        to=$(date +%s%N)
        echo $(((to - from) / 1000))
    done | sort -n | head -1 | awk '{ printf "%.4f", $1 / 1000000 }'
}

# compare TITLE FILE VARIABLE TIMES
compare() {
    evaluations "$2" "$4" "$3" >"$work/script"
    evaluations "$2" "$4" >"$work/stored"
    local ours stored plain
    stored=$(seconds "$work/stored" "$portsd" replay alpha)
    ours=$(seconds "$work/script" "$portsd" replay alpha)
    if [ "$(grep -c ' told 0 0 200$' "$work/out")" != $((2 * $4)) ]; then
        echo "a request wasn't answered by 200" >&2
        return 1
    fi
    plain=$(seconds /dev/null "$work/plain_make" "$2" "$3" "$4")
    awk -v title="$1" -v times="$4" -v ours="$ours" -v stored="$stored" -v plain="$plain" 'BEGIN {
        ours -= stored
        printf "%s, %d times: portsd %.4f s, plain %.4f s, ratio %.1f\n", title, times, ours, plain, ours / plain }'
}

doubling() {
    echo "A0 = x"
    for n in $(seq 14); do
        echo "A$n = \${A$((n - 1))}\${A$((n - 1))}"
    done
    echo 'B := ${A14}${A13}${A8}${A7}${A5}${A1}${A0}${A0}'
}

doubling >"$work/doubling"
compare "one line of 49,984 references" "$work/doubling" B 50
awk 'BEGIN { for (i = 0; i < 16384; i++) printf "%c=x\n", 97 + i % 26 }' >"$work/short"
compare "65,536 bytes of short assignments" "$work/short" a 50
awk 'BEGIN { for (i = 0; i < 1638; i++) printf "NAME_%04d = a value, of ${NAME_%04d} it\n", i, i - 1 }' | head -c 65536 >"$work/long"
compare "65,520 bytes of longer assignments" "$work/long" NAME_0001 50
