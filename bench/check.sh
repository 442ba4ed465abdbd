#!/bin/sh
# Time for checking sources of 1 MiB: bench/check.sh [-s FOLDER]
# Proves, builds and runs a program in a scratch copy of the crates under it: it reads its standard input by `source_reader::read`, checks it by
# `rule_checker::check`, and writes what that answers and the time of both. With -s it makes the program and the sources in FOLDER and stops there. The sources:
# 20,000 declarations on lines of their own with statements that use all of them, as many names in one declaration, one SELECT CASE of 150,000 values in falling
# order, one of 45,000 ranges with a block each, 9,000 procedures with a call of each, and 80,000 lines that print a literal.
set -e
root=$(cd "$(dirname "$0")/.." && pwd)
if [ "${1-}" = -s ]; then
    scratch=$2
else
    scratch=$(mktemp -d)
    trap 'rm -rf "$scratch"' EXIT
fi
mkdir -p "$scratch/crates/check_bench/src" "$scratch/sources"
libraries=$(awk -F ':' '
    { sub(/#.*/, "") }
    NF > 1 { split($1, words, " "); below[words[1]] = $2 }
    function visit(name,   stands_on, count, i) {
        if (name in seen || !(name in below)) return
        seen[name] = 1
        count = split(below[name], stands_on, " ")
        for (i = 1; i <= count; i++) visit(stands_on[i])
        print name
    }
    END { visit("source_reader"); visit("rule_checker") }' "$root/crates.txt")
for library in $libraries; do
    cp -r "$root/crates/$library" "$scratch/crates"
    grep "^${library}[ :]" "$root/crates.txt" >>"$scratch/crates.txt"
done
cp "$root/HANDLES" "$scratch"
# shellcheck disable=SC2086 # names of crates have no blanks
echo "check_bench: smallvec indexmap thiserror" $libraries >>"$scratch/crates.txt"
cat >"$scratch/crates/check_bench/src/main.rt" <<'PROGRAM'
//! Reads a source from standard input and checks it.
#![tactic(auto)]

use caf_base::refusal::Refusal;
use fortran_tree::unit::Program;
use rule_checker::check::check;
use source_reader::fault::{at, number};
use source_reader::source::read;
use std::alloc::Global;
use std::io::{self, Read};
use std::time::Instant;

fn judge(rt: &HostRuntime, alloc: Global, tree: Program) -> io::Result<()> {
    let start = Instant::now(rt)?;
    match check(alloc, tree) {
        Ok(checked) => {
            println!(rt; "accepted in {} ms", start.elapsed(rt)?.as_millis())?;
            drop(checked);
        }
        Err(Refusal::Cause(broken)) => {
            println!(rt; "refused {} at {}:{}", broken.rule, broken.at.line, broken.at.col)?;
        }
        Err(Refusal::NoMemory) => println!(rt; "no memory")?,
    }
    Ok(())
}

fn main(rt: HostRuntime) -> io::Result<()> {
    let alloc = rt.alloc();
    let mut bytes = Vec::new(alloc);
    rt.stdin().read_to_end(&mut bytes)?;
    if bytes.len() >= 4_294_967_295 {
        return Ok(());
    }
    let start = Instant::now(&rt)?;
    match read(alloc, bytes.as_slice()) {
        Ok(tree) => {
            println!(rt; "read in {} ms", start.elapsed(&rt)?.as_millis())?;
            judge(&rt, alloc, tree)?;
        }
        Err(Refusal::Cause(fault)) => {
            let place = at(fault);
            println!(rt; "refused {} at {}:{}", number(fault), place.line, place.col)?;
        }
        Err(Refusal::NoMemory) => println!(rt; "no memory")?,
    }
    Ok(())
}
PROGRAM
awk 'BEGIN {
    size = 1048576
    for (i = 1; i <= 20000; i++) size -= write(sprintf("integer :: variable%05d\n", i))
    while (size > 60) { k = k % 19999 + 1; size -= write(sprintf("variable%05d = variable%05d + 1\n", k, k + 1)) }
    print "end"
}
function write(line) { printf "%s", line; return length(line) }' >"$scratch/sources/declarations"
awk 'BEGIN {
    printf "integer :: v1"
    for (i = 2; i <= 20000; i++) printf "%s", (i % 100 == 0 ? ", &\n  " : ", ") "v" i
    print ""
    for (i = 1; i <= 40000; i++) printf "v%d = v%d\n", i % 20000 + 1, i * 7 % 20000 + 1
    print "end"
}' >"$scratch/sources/one_declaration"
awk 'BEGIN {
    print "integer :: x"
    print "select case (x)"
    printf "case (150000"
    for (i = 149999; i >= 1; i--) printf "%s%d", (i % 100 == 0 ? ", &\n" : ","), i
    print ")"
    print "x = 1"
    print "end select"
    print "end"
}' >"$scratch/sources/values"
awk 'BEGIN {
    print "integer :: x"
    print "select case (x)"
    for (i = 0; i < 45000; i++) { k = i * 7919 % 45000; printf "case (%d:%d)\n", 3 * k, 3 * k + 1 }
    print "case default"
    print "x = 1"
    print "end select"
    print "end"
}' >"$scratch/sources/ranges"
awk 'BEGIN {
    print "integer :: x"
    for (i = 1; i <= 9000; i++) printf "call work%d(x)\n", i
    print "contains"
    for (i = 1; i <= 9000; i++) printf "subroutine work%d(a)\ninteger :: a\na = a + 1\nend subroutine work%d\n", i, i
    print "end"
}' >"$scratch/sources/procedures"
awk 'BEGIN { for (i = 1; i <= 80000; i++) print "print *, \"x\""; print "end" }' >"$scratch/sources/literals"
if [ "${1-}" = -s ]; then exit; fi
(cd "$scratch/crates/check_bench" && rt run </dev/null)
program=$scratch/crates/check_bench/out/check_bench
for source in declarations one_declaration values ranges procedures literals; do
    echo "$source: $(wc -c <"$scratch/sources/$source") bytes"
    "$program" <"$scratch/sources/$source"
    if [ -x /usr/bin/time ]; then /usr/bin/time -f '%M KB at most' "$program" <"$scratch/sources/$source" >/dev/null; fi
done
