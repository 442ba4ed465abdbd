#!/bin/sh
# How many steps a second the built program makes, by rotation and by a SEED, on 8 and on 64 images: bench/run.sh [TURNS]
# Each image raises a coarray by one and meets the others in SYNC ALL, over and over: four steps a turn. The time is that of the whole call: it reads, checks and compiles the source, runs it, searches
# its trace for a race and writes the text.
set -e
root=$(cd "$(dirname "$0")/.." && pwd)
turns=${1-1000}
scratch=$(mktemp -d)
trap 'rm -rf "$scratch"' EXIT
cat >"$scratch/steps.f90" <<END
program steps
  integer :: x[*], i
  do i = 1, $turns
    x = x + 1
    sync all
  end do
end program
END
for images in 8 64; do
    for seed in 0 7; do
        begun=$(date +%s%N)
        "$root/caf" run -n $images --order $seed "$scratch/steps.f90"
        ended=$(date +%s%N)
        awk -v n=$images -v seed=$seed -v turns="$turns" -v ns=$((ended - begun)) 'BEGIN {
            steps = n * (4 * turns + 1)
            printf "%d images, --order %d: %d steps in %.2f s, %.0f a second\n", n, seed, steps, ns / 1e9, steps / (ns / 1e9)
        }'
    done
done
