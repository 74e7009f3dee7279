# What index.sh, serve.sh, many.sh and porters.sh share: a tree of ports that depend on each other. It is read by `source`.

path() { # path NUMBER: of a port, 40 in a category
    echo "category$(($1 / 40))/port$1"
}

# item NUMBER STEP PORTS: a dependency of a port on another one
item() {
    path $((($1 * 7 + $2 * 131 + 1) % $3))
}

port() { # port NUMBER PORTS VERSION: the makefile of a port with 8 dependencies
    cat <<PORT
COMMENT = a port of number $1
DISTNAME = port$1-$3
CATEGORIES = category$(($1 / 40)) misc
MAINTAINER = nobody <nobody@example.org>
BUILD_DEPENDS = $(item "$1" 1 "$2") $(item "$1" 2 "$2")>=1
LIB_DEPENDS = $(item "$1" 3 "$2") $(item "$1" 4 "$2") $(item "$1" 5 "$2")
RUN_DEPENDS = $(item "$1" 6 "$2") $(item "$1" 7 "$2") $(item "$1" 8 "$2")
.include <bsd.port.mk>
PORT
}

make_tree() { # make_tree DIRECTORY PORTS: writes the makefile of each port below the directory
    local number
    for number in $(seq 0 $(($2 - 1))); do
        mkdir -p "$1/ports/$(path "$number")"
        port "$number" "$2" "1.$((number % 40))" >"$1/ports/$(path "$number")/Makefile"
    done
}

# add_modules DIRECTORY: has each port of the tree name two of 40 modules, which are there, one of each two in the
# second tree of the search path
add_modules() {
    local number=0 makefile
    for makefile in "$1"/ports/category*/port*/Makefile; do
        sed -i "1i MODULES = lang/module$((number % 40)) lang/module$(((number + 7) % 40))" "$makefile"
        number=$((number + 1))
    done
    for number in $(seq 0 39); do
        local tree=ports
        [ $((number % 2)) = 0 ] || tree=mystuff
        mkdir -p "$1/$tree/lang/module$number"
        printf 'MODULE%s = %s\nMODULES_USED += %s\n' "$number" "$number" "$number" >"$1/$tree/lang/module$number/module$number.port.mk"
    done
}
