#!/usr/bin/env bash
# Runs several scripts with each growth of memory refused in turn, and compares what each request is answered with
# plain runs. refusal_scripts.py has the scripts, and refusals.py says how a run may end, and has one script more. If
# scripts are named, no others run. Prints how many runs of each script ended in each way, and then how many growths were
# refused in all. It stops at the first run that ends in another way.
set -euo pipefail
top=$(cd "$(dirname "$0")/.." && pwd)
work=$(mktemp -d)
trap 'rm -rf "$work"' EXIT
source "$top/bench/programs.sh" && find_portsd
find_cases

# refuses the growth whose number REFUSE gives, and none if that is 0; tells the descriptor MET of it
cat >"$work/refuse.c" <<'C'
#define _GNU_SOURCE
#include <dlfcn.h>
#include <stdlib.h>
#include <unistd.h>

static long number, refused = -1;
static int is_refused(void) {
    if (refused < 0) refused = atol(getenv("REFUSE"));
    if (++number != refused) return 0;
    if (write(atoi(getenv("MET")), "refused\n", 8)) {}
    return 1;
}
#define REAL(name) ((__typeof__(&name))dlsym(RTLD_NEXT, #name))
void *malloc(size_t size) { return is_refused() ? 0 : REAL(malloc)(size); }
void *calloc(size_t count, size_t size) { return is_refused() ? 0 : REAL(calloc)(count, size); }
void *realloc(void *old, size_t size) { return is_refused() ? 0 : REAL(realloc)(old, size); }
void *aligned_alloc(size_t align, size_t size) { return is_refused() ? 0 : REAL(aligned_alloc)(align, size); }
int posix_memalign(void **out, size_t align, size_t size) { return is_refused() ? 12 : REAL(posix_memalign)(out, align, size); }
C
${CC:-cc} -O1 -shared -fPIC -o "$work/refuse.so" "$work/refuse.c" -ldl
python3 -B "$top/bench/refusals.py" "$work/refuse.so" "$portsd" "$cases" "$@"
