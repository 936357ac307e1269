#!/bin/sh
# Counts how often each side of each branch of the runner is taken by COUNT near and COUNT far
# cards from SEED on. Prints the sides never taken, then how many there are in all; the counts
# stay in target/branches.txt: how often taken, how often not, where, the branch. With `sample`
# for COUNT the cards are those of the sample.
#     NVX_SRC=FOLDER oracle/branches.sh [COUNT|sample [SEED]]
set -e
. "$(dirname "$0")/lib.sh"
count="${1:-100000}"
seed="${2:-1}"
tool generate
tool branches
lay_out counted nanos
cp nvx/hits.rs target/counted/hits.rs
echo 'pub mod hits;' >>target/counted/lib.rs
: >target/branches.list
for file in runner.rs credit.rs credit/inbox.rs credit/receiver.rs credit/sender.rs mod.rs; do
    mv "target/counted/exec/$file" target/uncounted
    target/branches "$file" "$(wc -l <target/branches.list)" \
        <target/uncounted >"target/counted/exec/$file" 2>target/branches.more
    cat target/branches.more >>target/branches.list
done
compile counted counted-oracle
if [ "$count" = sample ]; then
    part_sample
    cat target/sample/near.cards target/sample/far.cards
else
    target/generate "$seed" "$count"
    target/generate "$seed" "$count" --far
fi |
    HITS=target/hits target/counted-oracle --ring --many >/dev/null
# The list names as many branches as there are; an arm of a match has no other side.
awk '
    NR == FNR { held[$1] = $2; not[$1] = $3; next }
    { number = $1; sub(/^[0-9]+ /, ""); arm = / =>$/ }
    { printf "%9d %9s  %s\n", held[number], arm ? "-" : not[number], $0 >"target/branches.txt" }
    { sides += arm ? 1 : 2 }
    held[number] == 0 { never++; print "never: " $0 }
    !arm && not[number] == 0 { never++; print "always: " $0 }
    END { printf "%d branches, %d sides, %d taken\n", FNR, sides, sides - never }
' target/hits target/branches.list
