#!/usr/bin/env bash
# Makes a tree of 1,900 ports (or as many as PORTS says) and asks one variable of each. Prints the time that
# portsd takes, that of a plain program (plain_tree.rs, built by rustc), and that of bmake, one process a
# port, as porters do it. Each port has a Makefile of some 30 lines with conditions, a loop and an include of
# the common file of its category. Each category has up to 40 ports, that common file and a Makefile.inc. So
# 1,900 ports are 1,996 files; a tenant may have 2,000. The times are without the storing of the files, and,
# for the plain program, without their loading. The answers are compared.
set -eu
top=$(cd "$(dirname "$0")/.." && pwd)
ports=${PORTS:-1900}
work=$(mktemp -d)
trap 'rm -rf "$work"' EXIT
source "$top/bench/programs.sh" && find_portsd
rustc -O -o "$work/plain_tree" "$top/bench/plain_tree.rs"

port() { # port NUMBER
    cat <<PORT
# Port $1
COMMENT = a port of number $1
V = 1.$(($1 % 40)).$(($1 % 7))
DISTNAME = port$1-\${V}
CATEGORIES = category$(($1 / 40)) misc
HOMEPAGE = https://example.org/port$1/
MASTER_SITES = \${HOMEPAGE}dist/
REVISION = $(($1 % 3))
FLAVORS = no_x11 gtk3
FLAVOR ?=
.include "../common.inc"
MODULES = lang/python
BUILD_DEPENDS = devel/gmake>=4
.if \${REVISION} == 0
FULL = \${DISTNAME}
.elif \${REVISION} == 1
FULL = \${DISTNAME}p1
.else
FULL = \${DISTNAME}p\${REVISION}
.endif
.for lib in alpha beta.so gamma delta
WANT += \${lib}
LIBS_\${lib} := \${PREFIX}/lib/\${lib}
.endfor
.if !empty(FLAVOR:Mgtk*) || defined(WITH_GTK)
CONFIGURE_ARGS += --with-gtk
.endif
.if exists(files)
EXTRA = \${.CURDIR}/files
.endif
ALL = \${FULL} \${WANT:S/a/A/:R} \${CONFIGURE_ARGS} \${LIBS_gamma:T:U} \${COMMON} \${EXTRA}
.include <bsd.port.mk>
PORT
}

common() {
    cat <<'COMMON'
PREFIX = /usr/local
SYSCONFDIR = /etc
COMMON = ${PREFIX}/share ${SYSCONFDIR}
.if defined(COMMENT) && !defined(NO_CONFIGURE)
CONFIGURE_ARGS += --prefix=${PREFIX}
.endif
.for tool in gmake pkgconf
TOOLS += ${tool}
.endfor
COMMON
}

for number in $(seq 0 $((ports - 1))); do
    category=$work/tree/ports/category$((number / 40))
    mkdir -p "$category/port$number"
    port "$number" >"$category/port$number/Makefile"
done
for category in "$work"/tree/ports/*; do
    common >"$category/common.inc"
    echo 'MAINTAINER ?= nobody <nobody@example.org>' >"$category/Makefile.inc"
done
mkdir "$work/sys" && : >"$work/sys/sys.mk"
echo '.include "${.CURDIR}/../Makefile.inc"' >"$work/sys/bsd.port.mk"

# puts and gets: a script that stores the tree, and the same with what asks for ALL of each port
puts() {
    echo "open 0"
    (cd "$work/tree" && find . -type f | sort) | while read -r name; do
        echo "piece 0 PUT /v1/file?name=${name#.} HTTP/1.1\\r\\nHost: x\\r\\nX-Ports-Key: alpha\\r\\nContent-Length: $(wc -c <"$work/tree/$name")\\r\\n\\r\\n$(awk '{ printf "%s\\n", $0 }' "$work/tree/$name")"
        echo "turn 0"
        echo "wrote 0 all"
    done
}
gets() {
    (cd "$work/tree/ports" && find . -name Makefile | sort) | while read -r name; do
        path=${name#./}
        echo "piece 0 GET /v1/var?path=${path%/Makefile}&name=ALL HTTP/1.1\\r\\nHost: x\\r\\nX-Ports-Key: alpha\\r\\n\\r\\n"
        echo "turn 0"
        echo "wrote 0 all"
    done
}
puts >"$work/puts"
{ cat "$work/puts" && gets; } >"$work/both"

# microseconds INPUT COMMAND..: of the best of three runs with this input
microseconds() {
    local input=$1 from to
    shift
    for _ in 1 2 3; do
        from=$(date +%s%N)
        "$@" <"$input" >"$work/out"
        to=$(date +%s%N)
        echo $(((to - from) / 1000))
    done | sort -n | head -1
}

stored=$(microseconds "$work/puts" "$portsd" replay alpha)
whole=$(microseconds "$work/both" "$portsd" replay alpha)
grep -o '"value":"[^"]*"' "$work/out" | sed 's/^"value":"//; s/"$//' >"$work/ours"
plain=$(for _ in 1 2 3; do "$work/plain_tree" "$work/tree" ALL 2>&1 >"$work/plain"; done | sort -n | head -1)
sed 's/^[^ ]* //' "$work/plain" >"$work/theirs"
sort "$work/ours" >"$work/ours.sorted"
sort "$work/theirs" >"$work/theirs.sorted"
cmp "$work/ours.sorted" "$work/theirs.sorted"
awk -v n="$ports" -v ours=$((whole - stored)) -v plain="$plain" 'BEGIN {
    printf "%d ports: portsd %.3f s, plain %.3f s, ratio %.1f\n", n, ours / 1000000, plain / 1000000, ours / plain }'

if command -v bmake >/dev/null; then
    from=$(date +%s%N)
    for makefile in "$work"/tree/ports/*/*/Makefile; do
        bmake -m "$work/sys" -C "${makefile%/Makefile}" -V '${ALL}' LOCALBASE=/usr/local
    done >"$work/bmake"
    to=$(date +%s%N)
    awk -v n="$ports" -v took=$(((to - from) / 1000)) 'BEGIN { printf "%d ports: bmake, one process a port, %.3f s\n", n, took / 1000000 }'
else
    echo "bmake isn't installed"
fi
