# What the scripts here read by `source`, once `top` names the checkout.

# Sets `portsd`: the program that PORTSD names, or else the one that ./run proves and builds.
find_portsd() {
    [ -n "${PORTSD:-}" ] || "$top/run" --help >/dev/null
    portsd=${PORTSD:-$top/crates/portsd/out/portsd}
}

# Sets `cases`: the program that WORKED_CASES names, or else the one that tools/prove proves and builds.
find_cases() {
    [ -n "${WORKED_CASES:-}" ] || "$top/tools/prove" worked_cases
    cases=${WORKED_CASES:-$top/crates/worked_cases/out/worked_cases}
}
