# What index.sh and serve.sh share: scripts of `replay` about the tree of ports_tree.sh, and what a run of one takes. It
# is read by `source` after that. `portsd` names the program, `work` a scratch folder, and `count` what is counted.

put() { # put NAME FILE: what stores this file under the name
    echo "piece 0 PUT /v1/file?name=$1 HTTP/1.1\\r\\nHost: x\\r\\nX-Ports-Key: alpha\\r\\nContent-Length: $(wc -c <"$2")\\r\\n\\r\\n$(awk '{ printf "%s\\n", $0 }' "$2")"
    echo "turn 0"
    echo "wrote 0 all"
}

get() { # get TARGET TURNS: what asks for it, and has it answered in so many turns
    echo "piece 0 GET $1 HTTP/1.1\\r\\nHost: x\\r\\nX-Ports-Key: alpha\\r\\n\\r\\n"
    awk -v turns="$2" 'BEGIN { for (turn = 0; turn < turns; turn++) print "turn 0" }'
    echo "wrote 0 all"
}

puts() { # puts TREE: a script that stores a tree
    echo "open 0"
    (cd "$1" && find . -type f | sort) | while read -r name; do
        put "${name#.}" "$1/$name"
    done
}

# new_version NUMBER PORTS: what stores a port of the tree again, with a version that it hadn't
new_version() {
    local number=$(($1 * 7 % $2))
    port "$number" "$2" "2.$1" >"$work/makefile"
    put "/ports/$(path "$number")/Makefile" "$work/makefile"
}

repeat() { # repeat TIMES COMMAND..: what the command prints, so many times; each time the number is its last word
    local number many=$1
    shift
    for number in $(seq "$many"); do
        "$@" "$number"
    done
}

asks() { get "$1" 1; }
uploads_one() { new_version "$2" "$1"; }

counted() { # counted SCRIPT TOOL..: runs it by valgrind with this tool, which writes what it counts to $work/counted
    local script=$1
    shift
    valgrind "$@" "$portsd" replay alpha <"$script" 2>"$work/counted" >"$work/out"
}

run() { # run SCRIPT: runs it once, and prints the microseconds, the instructions or the allocations that this took
    local from to
    case $count in
    instructions)
        counted "$1" --tool=callgrind --callgrind-out-file=/dev/null
        awk '/Collected/ { print $NF }' "$work/counted" >"$work/number"
        ;;
    allocations)
        counted "$1" --tool=memcheck --undef-value-errors=no --leak-check=no --trace-malloc=yes
        grep -cE '^--[0-9]+-- [mc]alloc\(' "$work/counted" >"$work/number"
        ;;
    *)
        from=$(date +%s%N)
        "$portsd" replay alpha <"$1" >"$work/out"
        to=$(date +%s%N)
        echo $(((to - from) / 1000)) >"$work/number"
        ;;
    esac
    if ! grep . "$work/number"; then
        echo "valgrind has counted nothing" >&2
        return 1
    fi
    if [ "$(grep -c '^piece' "$1")" != "$(grep -c ' told 0 0 200$' "$work/out")" ]; then
        echo "a request of $1 wasn't answered by 200" >&2
        return 1
    fi
}
