#!/bin/sh
# How many bytes of memory a counted word takes, with the trace and what the search for races keeps: bench/words.sh [TURNS]
# Each program makes steps of a few kinds on 64 images by rotation, over and over. Its words are those of its steps (4 a step, and one more for each value in its ask and reply), its bytes the
# most memory of the call less that of the same call with one turn. It wants /usr/bin/time.
set -e
root=$(cd "$(dirname "$0")/.." && pwd)
turns=${1-1000}
scratch=$(mktemp -d)
trap 'rm -rf "$scratch"' EXIT

# A program with these declarations and statements: program_text DECLARATIONS STATEMENTS TURNS
program_text() {
    printf 'program words\n  use iso_fortran_env\n%b\n  integer :: i, s\n  s = 0\n  do i = 1, %s\n%b\n  end do\nend program\n' "$1" "$3" "$2"
}

# The most memory of a run of the program, in KB.
most() {
    /usr/bin/time -f %M "$root/caf" run -n 64 --order 0 --steps 100000000 "$1" 2>&1 >"$scratch/out" | tail -1
}

# One line of a program: measure NAME WORDS DECLARATIONS STATEMENTS, with so many words a turn on each image.
measure() {
    program_text "$3" "$4" "$turns" >"$scratch/many.f90"
    program_text "$3" "$4" 1 >"$scratch/one.f90"
    many=$(most "$scratch/many.f90")
    one=$(most "$scratch/one.f90")
    awk -v name="$1" -v words="$2" -v turns="$turns" -v kb=$((many - one)) 'BEGIN {
        printf "%s: %d words, %d KB, %.0f bytes a word\n", name, 64 * words * (turns - 1), kb, 1024 * kb / (64 * words * (turns - 1))
    }'
}

measure "accesses of a cell and SYNC ALL" 18 '  integer :: x[*]' '    x = x + 1\n    sync all'
measure "sections of 16 cells" 20 '  integer :: c(16)[*], d(16)' '    d = c(:)[1]'
measure "atomics" 7 '  integer(atomic_int_kind) :: c[*]' '    call atomic_add(c[1], 1)'
measure "locks" 8 '  type(lock_type) :: l[*]' '    lock(l[1])\n    unlock(l[1])'
measure "events" 8 '  type(event_type) :: e[*]' '    event post(e[mod(this_image(), num_images()) + 1])\n    event wait(e)'
measure "CO_SUM" 10 '' '    s = i\n    call co_sum(s)'
measure "CRITICAL" 8 '' '    critical\n    end critical'
measure "SYNC IMAGES with two neighbours" 10 '' '    sync images([mod(this_image(), 64) + 1, mod(this_image() + 62, 64) + 1])'
measure "prints" 5 '' '    print *, 1'
