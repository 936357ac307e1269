#!/bin/sh
# Holds a program that reads session cards to the oracle, over COUNT near and COUNT far random
# cards from SEED on; near ones to the sources as they are, far ones to those with u64 time. The
# program is run once for each card; with --many, once for 10,000 cards, each ended by `----`.
# Stops with 1 if a card's answers differ; the card's seed is that of the batch plus its number.
#     NVX_SRC=FOLDER oracle/compare.sh [--many] COUNT SEED PROGRAM [ARGUMENT...]
set -e
from="$PWD"
. "$(dirname "$0")/lib.sh"
each="$PWD/target/each"
if [ "$1" = --many ]; then
    each=
    shift
fi
count="$1" seed="$2"
shift 2
./build.sh
for name in generate each compare; do tool "$name"; done
wrong=0
for times in near far; do
    [ $times = near ] && oracle=oracle flag= || { oracle=oracle64 flag=--far; }
    first="$seed"
    while [ "$first" -lt $((seed + count)) ]; do
        batch=$((seed + count - first))
        [ "$batch" -le 10000 ] || batch=10000
        target/generate "$first" "$batch" $flag >target/compare.cards
        target/$oracle --ring --many <target/compare.cards >target/compare.oracle
        # The program is named from where the script was started.
        (cd "$from" && $each "$@") <target/compare.cards >target/compare.program
        echo "$times cards from seed $first:"
        target/compare target/compare.oracle target/compare.program || wrong=1
        first=$((first + batch))
    done
done
exit $wrong
