#!/bin/sh
# Time for reading a source of 1 MiB: bench/source-form.sh PROGRAM WORD..
# Runs the built program with these words and the made file's name behind them. Linear in the bytes: the file of 2 MiB takes twice as long.
set -e
program=$1
shift
folder=$(mktemp -d)
trap 'rm -r "$folder"' EXIT
line="  if (this_image() == 1 .and. a(i, j)[3] /= 'it''s') x = b ** 2 + (c - 4711_8) / max(d, e) ! a comment"
for size in 1 2; do
    file=$folder/source_$size.f90
    yes "$line" | head -c "$((size * 1048576))" | sed '$d' >"$file"
    echo "$size MiB"
    time "$program" "$@" "$file" >/dev/null || true
done
