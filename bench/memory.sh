#!/bin/sh
# Peak memory of the programs all_builds and counter, on a rule file with few builds and on one with two million.
# Needs the built programs, GNU time as /usr/bin/time, and what run.sh needs. See README.md here.
set -eu
cd "$(dirname "$0")/.."
top=$PWD
files=$top/bench/target/memory
bench/run.sh write "$files"

# Runs a program on a file, and prints its last line and its peak memory.
peak() {
    /usr/bin/time -f %M -o "$files/peak" "$top/crates/$1/out/$1" | tail -n 1 >"$files/last"
    printf '%-12s %-6s %10s kB, last line: %s\n' "$1" "$2" "$(cat "$files/peak")" "$(cat "$files/last")"
}

for program in all_builds counter; do
    if [ ! -x "crates/$program/out/$program" ]; then
        echo "$program: not built yet, crates/$program/out/$program is missing"
        continue
    fi
    for file in few many; do
        cd "$files/$file"
        if [ "$program" = counter ]; then
            # More than there are builds, so that the last ones answer the end.
            yes 'next 4294967295' | head -n 2100000 | peak counter "$file"
        else
            peak all_builds "$file"
        fi
        cd "$top"
    done
done
