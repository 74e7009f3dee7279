#!/usr/bin/env bash
# Makes trees of 500, 1,000 and 2,000 ports (or as many as SIZES says) with 8 dependencies each, and prints
# how long portsd takes for questions about all of them, and for uploads. Each time is the difference of two
# scripts' times, each the best of three runs. Beside the first list is the time of a plain program
# (plain_tree.rs, built by rustc) that evaluates the same makefiles, makes the same records and writes the
# same list; what both list is compared. Beside what comes after a first list is the time of a plain program that keeps
# the records in memory (plain_index.rs). If COUNT is `instructions` or `allocations`, valgrind counts these of one run in
# place of the time, and nothing is compared.
set -euo pipefail
top=$(cd "$(dirname "$0")/.." && pwd)
source "$top/bench/ports_tree.sh"
source "$top/bench/tree_scripts.sh"
sizes=${SIZES:-500 1000 2000}
times=${TIMES:-100}
uploads=${UPLOADS:-200}
count=${COUNT:-time}
most=2000 # so many files a tenant may have
matching='/v1/match?spec=port1*-*'
reaching='/v1/rdeps?path=category0/port0&depth=all'
depended='/v1/deps?path=category0/port0'
depending='/v1/rdeps?path=category0/port0'
work=$(mktemp -d)
trap 'rm -rf "$work"' EXIT
source "$top/bench/programs.sh" && find_portsd
rustc -O -o "$work/plain_tree" "$top/bench/plain_tree.rs"
rustc -O -o "$work/plain_index" "$top/bench/plain_index.rs"

# new_item NUMBER PORTS: what stores a port of the tree again, which depends on one more port than it did
new_item() {
    local number=$(($1 * 7 % $2))
    {
        port "$number" "$2" "1.$((number % 40))" | sed '$d'
        echo "RUN_DEPENDS += $(item "$number" 9 "$2")"
        echo ".include <bsd.port.mk>"
    } >"$work/makefile"
    put "/ports/$(path "$number")/Makefile" "$work/makefile"
}

# new_port NUMBER PORTS: what stores a port that the tree hasn't
new_port() {
    port "$(($2 + $1))" "$2" 1.0 >"$work/makefile"
    put "/ports/added/port$1/Makefile" "$work/makefile"
}

remove() { # remove NAME: what removes the file of this name
    echo "piece 0 DELETE /v1/file?name=$1 HTTP/1.1\\r\\nHost: x\\r\\nX-Ports-Key: alpha\\r\\n\\r\\n"
    echo "turn 0"
    echo "wrote 0 all"
}

uploads_and_asks() { new_version "$2" "$1" && get "$matching" 2; }
adds_an_item() { new_item "$2" "$1" && get "$matching" 2; }
adds_a_port() { new_port "$2" "$1" && get "$matching" 2; }
removes_a_port() { remove "/ports/$(path $(($2 * 7 % $1)))/Makefile" && get "$matching" 1; }
removes_and_lists() { remove "/ports/$(path $(($1 - 1)))/Makefile" && get /v1/list 1; }

# measure SCRIPT..: runs these scripts one after another, in three rounds, and keeps the best of each
measure() {
    local round script
    rm -f "$work"/best.*
    for round in 1 2 3; do
        for script; do
            run "$work/$script" >>"$work/best.$script"
            [ "$script" != list ] || tail -1 "$work/out" | sed 's/.*\(\[.*\]\).*/\1/' >"$work/ours"
        done
        [ "$count" = time ] || break
    done
}

best() { # best SCRIPT
    sort -n "$work/best.$1" | head -1
}

# tell NAME SCRIPT BEFORE TIMES: what one of so many takes by which the first script is longer than the other, and what
# it takes the plain program, if that does the same
tell() {
    local unit=ms per=1000 plain=
    case $count in
    time) plain=$(awk -v name="$2" '$1 == name { print $2 }' "$work/plain") ;;
    instructions) unit="million instructions" && per=1000000 ;;
    allocations) unit="thousand allocations" ;;
    esac
    awk -v name="$1" -v whole="$(best "$2")" -v before="$(best "$3")" -v times="$4" -v per=$per -v unit="$unit" -v plain="$plain" '
        BEGIN {
            ours = (whole - before) / times / per
            printf "    %-28s %9.3f %s", name, ours, unit
            if (plain != "") printf ", plain %.3f ms, ratio %.1f", plain / 1000, ours * 1000 / plain
            print "" }'
}

for ports in $sizes; do
    make_tree "$work/tree$ports" "$ports"
    puts "$work/tree$ports" >"$work/stored"
    all=$((ports + 1)) # a turn for each port, and one for the reply
    { cat "$work/stored" && get /v1/list "$all"; } >"$work/list"
    { cat "$work/stored" && get "$matching" "$all"; } >"$work/match"
    { cat "$work/stored" && get "$reaching" "$all"; } >"$work/rdeps"
    { cat "$work/list" && repeat "$times" asks /v1/list; } >"$work/again"
    { cat "$work/list" && repeat "$times" uploads_and_asks "$ports"; } >"$work/changed"
    { cat "$work/list" && repeat "$times" adds_an_item "$ports"; } >"$work/items"
    rm -f "$work/added"
    [ $((ports + times)) -gt $most ] || { cat "$work/list" && repeat "$times" adds_a_port "$ports"; } >"$work/added"
    { cat "$work/list" && repeat "$times" removes_a_port "$ports"; } >"$work/removed"
    { cat "$work/list" && repeat "$ports" removes_and_lists; } >"$work/emptied"
    { cat "$work/list" && repeat "$times" asks "$depended"; } >"$work/depended"
    { cat "$work/list" && repeat "$times" asks "$depending"; } >"$work/depending"
    { cat "$work/list" && repeat "$times" asks /v1/faults; } >"$work/faults"
    { cat "$work/list" && repeat "$times" asks "$reaching"; } >"$work/reached"
    { cat "$work/list" && repeat "$uploads" uploads_one "$ports"; } >"$work/uploaded"
    { cat "$work/stored" && repeat "$uploads" uploads_one "$ports"; } >"$work/restored"
    measure stored list match rdeps again changed items $(cd "$work" && ls added 2>/dev/null) removed emptied depended depending faults reached uploaded restored
    [ "$count" != time ] || "$work/plain_index" "$work/tree$ports" "$times" >"$work/plain"
    echo "$ports ports:"
    tell "first list" list stored 1
    tell "first match" match stored 1
    tell "first rdeps, depth all" rdeps stored 1
    tell "list again" again list "$times"
    tell "upload and match" changed list "$times"
    tell "upload of an item and match" items list "$times"
    [ ! -f "$work/added" ] || tell "new makefile and match" added list "$times"
    tell "removed one and match" removed list "$times"
    tell "all removed, each and a list" emptied list "$ports"
    tell "deps again" depended list "$times"
    tell "rdeps again" depending list "$times"
    tell "rdeps, depth all, again" reached list "$times"
    tell "faults again" faults list "$times"
    tell "upload, all listed" uploaded list "$uploads"
    tell "upload, nothing listed" restored stored "$uploads"
    [ "$count" = time ] || continue
    plain=$(for _ in 1 2 3; do "$work/plain_tree" "$work/tree$ports" --list 2>&1 >"$work/theirs"; done | sort -n | head -1)
    cmp "$work/ours" "$work/theirs"
    awk -v ours=$(($(best list) - $(best stored))) -v plain="$plain" 'BEGIN {
        printf "    %-28s %9.3f ms, ratio of the first list %.1f\n", "plain list", plain / 1000, ours / plain }'
done
