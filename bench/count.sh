#!/bin/sh
# Builds both sides and prints the instructions of a turn: of twice as many turns, less those of as many.
set -e
. "$(dirname "$0")/lib.sh"
instructions() {
    valgrind --tool=callgrind --callgrind-out-file=/dev/null target/bench "$@" 2>&1 | awk '/Collected/ { print $4 }'
}
echo '| a turn | Rust | ours |'
echo '|---|---|---|'
for line in output64 output1k output16k input64 input16k tick deadline credit idle frames adapter64; do
    turns=1000
    parts=1
    [ $line = frames ] && turns=10 && parts=1024
    row=
    for side in rust ours; do
        once=$(instructions $line $side $turns)
        twice=$(instructions $line $side $((2 * turns)))
        row="$row $(((twice - once) / turns / parts)) |"
    done
    echo "| $line |$row"
done
