#!/bin/sh
# Time and memory for reading sources of 1 MiB: bench/reading.sh
# Proves, builds and runs a program in a scratch copy of the crates under it: it reads its standard input by `source_reader::read` and writes whether that is a
# program, or the number and the place of its refusal. The sources: statements as users write them, one sum of 500,000 terms, and three hostile ones, a statement of
# 300,000 brackets, 65,000 nested one-line IFs, and 500,000 `;`.
set -e
root=$(cd "$(dirname "$0")/.." && pwd)
scratch=$(mktemp -d)
trap 'rm -rf "$scratch"' EXIT
mkdir -p "$scratch/crates/reading_bench/src"
libraries=$(awk -F ':' '
    { sub(/#.*/, "") }
    NF > 1 { split($1, words, " "); below[words[1]] = $2 }
    function visit(name,   stands_on, count, i) {
        if (name in seen || !(name in below)) return
        seen[name] = 1
        count = split(below[name], stands_on, " ")
        for (i = 1; i <= count; i++) visit(stands_on[i])
        print name
    }
    END { visit("source_reader") }' "$root/crates.txt")
for library in $libraries; do
    cp -r "$root/crates/$library" "$scratch/crates"
    grep "^${library}[ :]" "$root/crates.txt" >>"$scratch/crates.txt"
done
cp "$root/HANDLES" "$scratch"
# shellcheck disable=SC2086 # names of crates have no blanks
echo "reading_bench: smallvec thiserror" $libraries >>"$scratch/crates.txt"
cat >"$scratch/crates/reading_bench/src/main.rt" <<'PROGRAM'
//! Reads a source from standard input.
#![tactic(auto)]

use caf_base::refusal::Refusal;
use source_reader::fault::{at, number};
use source_reader::source::read;
use std::io::{self, Read};

fn main(rt: HostRuntime) -> io::Result<()> {
    let alloc = rt.alloc();
    let mut bytes = Vec::new(alloc);
    rt.stdin().read_to_end(&mut bytes)?;
    if bytes.len() >= 4_294_967_295 {
        return Ok(());
    }
    match read(alloc, bytes.as_slice()) {
        Ok(tree) => {
            drop(tree);
            println!(rt; "a program")?;
        }
        Err(Refusal::Cause(fault)) => {
            let place = at(fault);
            println!(rt; "refused {} at {}:{}", number(fault), place.line, place.col)?;
        }
        Err(Refusal::NoMemory) => println!(rt; "no memory")?,
    }
    Ok(())
}
PROGRAM
(cd "$scratch/crates/reading_bench" && rt run </dev/null)
program=$scratch/crates/reading_bench/out/reading_bench
statement="  if (this_image() == 1 .and. a(i, j)[3] /= 7) x = b ** 2 + (c - 4711_8) / max(d, e)"
{ yes "$statement" | head -c 1048000 | sed '$d'; echo end; } >"$scratch/statements"
# COUNT pieces on lines of so many, the first of them behind FRONT
one_statement() {
    awk -v front="$1" -v piece="$2" -v count="$3" -v room="$4" 'BEGIN {
        printf "%s&\n&", front
        for (i = 0; i < count; i++) printf "%s%s", (i && i % room == 0 ? "&\n&" : ""), piece
        printf "\nend\n"
    }'
}
one_statement 'print *, 1' '+1' 500000 490 >"$scratch/sum"
one_statement 'print *, ' '(' 300000 980 >"$scratch/brackets"
{ yes 'if (.true.) &' | head -n 65000; echo 'x = 1'; echo end; } >"$scratch/ifs"
{ yes ';' | head -n 500000 | tr -d '\n' | fold -w 990; printf '\nend\n'; } >"$scratch/semicolons"
for source in statements sum brackets ifs semicolons; do
    echo "$source: $(wc -c <"$scratch/$source") bytes"
    ( time "$program" <"$scratch/$source" ) 2>&1
    if [ -x /usr/bin/time ]; then /usr/bin/time -f '%M KB at most' "$program" <"$scratch/$source" >/dev/null; fi
done
