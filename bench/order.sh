#!/bin/sh
# How many steps a second the ordered run makes by itself, by rotation and by a SEED, on 64 images: bench/order.sh [TURNS]
# The program is that of bench/run.sh. The time is that between the call of `PartsOf::run_order` in the built program and its return, the best of five calls: reading, checking and compiling the source,
# the trace, the search for a race and the text are left out. It wants perf (Debian's linux-perf), nm, readelf and root, for a probe at that function.
set -e
root=$(cd "$(dirname "$0")/.." && pwd)
turns=${1-1000}
program=${CAF_PROGRAM-$root/crates/caf/out/caf}
scratch=$(mktemp -d)
trap 'perf probe -q -d "caf_order:*" >/dev/null 2>&1; rm -rf "$scratch"' EXIT
cat >"$scratch/steps.f90" <<END
program steps
  integer :: x[*], i
  do i = 1, $turns
    x = x + 1
    sync all
  end do
end program
END
at=$(nm "$program" | awk '/PartsOf::run_order/ { print $1; exit }')
# Where the function stands in the file: its address, less the address of the code's part, and where that part begins in the file.
place=$(readelf -lW "$program" | awk -v at="$at" '/LOAD/ && /R E/ { print "0x" at, $3, $2; exit }')
# shellcheck disable=SC2086 # three words
set -- $place
offset=$(printf '0x%x' $(($1 - $2 + $3)))
perf probe -q -x "$program" --add "caf_order:begin=$offset" 2>/dev/null
perf probe -q -x "$program" --add "caf_order:ended=$offset%return" 2>/dev/null
for seed in 0 7; do
    for _ in 1 2 3 4 5; do
        perf record -q -e 'caf_order:*' -o "$scratch/data" "$program" run -n 64 --order $seed --steps 100000000 "$scratch/steps.f90" >/dev/null 2>&1
        perf script -i "$scratch/data" 2>/dev/null | awk '{ sub(":", "", $4) } /:begin:/ { a = $4 } /:ended/ { printf "%.6f\n", $4 - a }'
    done | sort -n | head -1 >"$scratch/best"
    awk -v seed=$seed -v turns="$turns" '{ steps = 64 * (4 * turns + 1); printf "64 images, --order %d: %d steps in %.3f s, %.0f a second\n", seed, steps, $1, steps / $1 }' "$scratch/best"
done
