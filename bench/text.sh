#!/usr/bin/env bash
# Shows how the time of the text layers grows: for each case the seconds that `worked_cases` takes to read its line,
# to do what it says and to compare the answer, at sizes n, 2n and 4n. Each should be about twice the one before. The
# size is the number of references, of dollars, of brackets, of the letters of a word, of words, of blocks, or of the
# signs or operands of a condition. Openings that nothing closes are refused at the 65th, however many there are, and
# so are `!` and parentheses. An answer that differs is printed, and ends the run.
set -eu
top=$(cd "$(dirname "$0")/.." && pwd)
source "$top/bench/programs.sh" && find_cases

# line CASE SIZE: the call, and what it gives
line() {
    local n=$2
    case $1 in
    references) echo 'number of pieces "${"*'"$n"'+"}"*'"$n => 1" ;;
    dollars) echo 'number of pieces "$"*'"$n => $((n / 2))" ;;
    brackets) echo 'glob "["*'"$n"' "["*'"$n => fits" ;;
    runs) echo 'glob "*a"*300+"b" "a"*'"$n => no" ;;
    restarts) echo 'glob "*"+"a"*300+"b" "a"*'"$n => no" ;;
    substitute) echo 'modifiers "S/aaab/c/g" of "a"*'"$n"' => "a"*'"$n" ;;
    words) echo 'modifiers "U" of "a "*'"$n"' => "A"+" A"*'"$((n - 1))" ;;
    blocks) echo 'tree ".if 1\n.endif\n"*'"$n"'+".if 1\n"*65 => Block at '"$((2 * n + 65))" ;;
    openings) echo 'tree ".if 1\n"*'"$n => Block at 65" ;;
    bangs) echo 'truth "if "+"!"*'"$n"'+"1" => Condition 0 0' ;;
    parentheses) echo 'truth "if "+"("*'"$n => Condition 0 0" ;;
    operands) echo 'truth "if "+"0||"*'"$n"'+"1" => true 0 0' ;;
    esac
}

# seconds CASE SIZE TIMES: of the best of three runs of a file with that line so many times
seconds() {
    local input from to said
    input=$(mktemp)
    for _ in $(seq "$3"); do line "$1" "$2"; done >"$input"
    for _ in 1 2 3; do
        from=$(date +%s%N)
        said=$("$cases" <"$input")
        to=$(date +%s%N)
        case $said in
        "$3 cases, 0 differ") echo $(((to - from) / 1000)) ;;
        *) echo "$1 $2: $said" >&2 ;;
        esac
    done | sort -n | head -1 | awk '{ printf "%.3f", $1 / 1000000 }'
    rm "$input"
}

# sizes CASE N [TIMES]: the case at n, 2n and 4n, done so many times, or once
sizes() {
    local size took
    for size in "$2" $((2 * $2)) $((4 * $2)); do
        took=$(seconds "$1" "$size" "${3:-1}")
        [ -n "$took" ] || exit 1
        echo "$1 $size  $took s"
    done
}

sizes references 500000
sizes dollars 500000
sizes brackets 500000
sizes runs 100000
sizes restarts 100000
sizes substitute 8000 100
sizes words 8000 100
sizes blocks 100000
sizes openings 200000
sizes bangs 60000
sizes parentheses 30000
sizes operands 21845
