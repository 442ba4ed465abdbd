#!/bin/sh
# The machine beside Lua 5.4 on the same loops: bench/lua.sh [TURNS]        it needs lua5.4 (Debian's package of that name)
# bench/stencil: a stencil over a local array of 1,000 elements, 20,000 rounds; bench/product: the product of two integer matrices of 120 by 120. Each is run so many times (5) by both, in turns; the best time of
# each counts, of the whole call, and the ratio is Lua's time divided by the program's: above 1 the program is faster.
root=$(cd "$(dirname "$0")/.." && pwd) || exit 2
turns=${1-5}
command -v lua5.4 >/dev/null || exit 2

# How long a call takes, in nanoseconds.
timed() {
    begun=$(date +%s%N)
    "$@" >/dev/null || return 1
    echo $(($(date +%s%N) - begun))
}

for case in "stencil 20000" "product 120"; do
    name=${case% *}
    size=${case#* }
    for _ in $(seq "$turns"); do
        echo caf "$(timed "$root/crates/caf/out/caf" run -n 1 --order 0 --steps 100000000 "$root/bench/$name.f90")"
        echo lua "$(timed lua5.4 "$root/bench/$name.lua" "$size")"
    done | awk -v name="$name" '
        !($1 in best) || $2 < best[$1] { best[$1] = $2 }
        END { printf "%s: the program %.3f s, lua5.4 %.3f s, ratio %.2f\n", name, best["caf"] / 1e9, best["lua"] / 1e9, best["lua"] / best["caf"] }'
done
