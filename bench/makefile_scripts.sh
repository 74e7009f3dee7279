# What expansion.sh and linear.sh share: scripts of `replay` by which one makefile is evaluated again and again. It is read by
# `source`.

# evaluations FILE TIMES [VARIABLE]: a script of `replay` that stores the file so many times, each time with another last
# line, so that no evaluation of it is kept. If a variable is given, it is asked for after each, in as many turns as the
# most units take
evaluations() {
    local size text number
    size=$(wc -c <"$1")
    text=$(awk '{ printf "%s\\n", $0 }' "$1")
    echo "open 0"
    for number in $(seq 1001 $((1000 + $2))); do
        echo "piece 0 PUT /v1/file?name=/ports/a/b/Makefile HTTP/1.1\\r\\nHost: x\\r\\nX-Ports-Key: alpha\\r\\nContent-Length: $((size + 6))\\r\\n\\r\\n$text#$number\\n"
        echo "turn 0"
        echo "wrote 0 all"
        [ -n "${3:-}" ] || continue
        echo "piece 0 GET /v1/var?path=a/b&name=$3 HTTP/1.1\\r\\nHost: x\\r\\nX-Ports-Key: alpha\\r\\n\\r\\n"
        yes "turn 0" | head -60
        echo "wrote 0 all"
    done
}
