#!/usr/bin/env bash
# Makes a tree of 1,900 ports (or as many as PORTS says) with 8 dependencies each, and the same tree with two
# modules for each port, of 40 that there are. Prints for both how long portsd takes for the first list, and for
# the list again. Each time is the difference of two scripts' times, each the best of three runs. The two lists
# are compared.
set -euo pipefail
top=$(cd "$(dirname "$0")/.." && pwd)
source "$top/bench/ports_tree.sh"
ports=${PORTS:-1900}
times=${TIMES:-100}
work=$(mktemp -d)
trap 'rm -rf "$work"' EXIT
source "$top/bench/programs.sh" && find_portsd

send() { # send METHOD TARGET FILE: what sends this request, with the file's bytes as its body
    echo "piece 0 $1 $2 HTTP/1.1\\r\\nHost: x\\r\\nX-Ports-Key: alpha\\r\\nContent-Length: $(wc -c <"$3")\\r\\n\\r\\n$(awk '{ printf "%s\\n", $0 }' "$3")"
    echo "turn 0"
    echo "wrote 0 all"
}

list() { # list TURNS: what asks for the list, and has it answered in so many turns
    echo "piece 0 GET /v1/list HTTP/1.1\\r\\nHost: x\\r\\nX-Ports-Key: alpha\\r\\n\\r\\n"
    awk -v turns="$1" 'BEGIN { for (turn = 0; turn < turns; turn++) print "turn 0" }'
    echo "wrote 0 all"
}

stored() { # stored TREE: a script that chooses the second profile and stores a tree
    echo "open 0"
    echo 2 >"$work/profile"
    send PUT /v1/profile "$work/profile"
    (cd "$1" && find . -type f | sort) | while read -r name; do
        send PUT "/v1/file?name=${name#.}" "$1/$name"
    done
}

micros() { # micros SCRIPT: the microseconds of the best of three runs
    local from to round
    for round in 1 2 3; do
        from=$(date +%s%N)
        "$portsd" replay alpha <"$1" >"$work/out"
        to=$(date +%s%N)
        echo $(((to - from) / 1000))
    done | sort -n | head -1
    [ "$(grep -c '^piece' "$1")" = "$(grep -c ' told 0 0 200$' "$work/out")" ] || echo "a request of $1 wasn't answered by 200" >&2
}

make_tree "$work/plain" "$ports"
cp -r "$work/plain" "$work/modules"
add_modules "$work/modules"
for tree in plain modules; do
    stored "$work/$tree" >"$work/stored"
    { cat "$work/stored" && list $((ports + 1)); } >"$work/first"
    { cat "$work/first" && for _ in $(seq "$times"); do list 1; done; } >"$work/again"
    before=$(micros "$work/stored")
    first=$(micros "$work/first")
    tail -1 "$work/out" | sed 's/.*\(\[.*\]\).*/\1/' >"$work/list.$tree"
    again=$(micros "$work/again")
    awk -v tree="$tree" -v first=$((first - before)) -v again=$((again - first)) -v times="$times" 'BEGIN {
        printf "%-8s first list %9.3f ms, list again %9.3f ms\n", tree, first / 1000, again / times / 1000 }'
done
cmp "$work/list.plain" "$work/list.modules" && echo "both lists are the same"
