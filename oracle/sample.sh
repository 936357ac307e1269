#!/bin/sh
# Chooses the sample anew and records it: the seeds of its cards in sample.seeds, the cards, near
# ones first, behind them those of examples/ and cards/, as the standard input of the program
# conformance, the oracle's answers as its output. Last come the cards with another smallest grant
# than 1, with the answers that stand beside them.
# mutants.sh has to run before: the sample is chosen from its cards, so that each mutant is told
# apart by TIMES of them, or by all.
#     NVX_SRC=FOLDER oracle/sample.sh [TIMES]
set -e
. "$(dirname "$0")/lib.sh"
tool choose
# To be read by people too: short cards of printable lines.
for times in near far; do
    LC_ALL=C awk -v times=$times '
        BEGIN { seed = 1 }
        $0 != "----" { lines++; bytes += length + 1; odd += /[^ -~]/; next }
        lines <= 100 && bytes <= 4000 && !odd { print times, seed, lines }
        { seed++; lines = bytes = odd = 0 }
    ' "target/$times.cards"
done >target/sizes
target/choose "${1:-6}" target/told target/sizes | sort -k 1,1r -k 2,2n >sample.seeds
recorded=../crates/conformance
while read -r times seed; do
    target/generate "$seed" 1 $([ "$times" = near ] || echo --far)
done <sample.seeds >$recorded/stdin
part_read
for card in $answered; do
    cat "$card"
    echo ----
done >>$recorded/stdin
target/oracle64 --ring --many <$recorded/stdin >$recorded/stdout
for card in $defined; do
    cat "$card" >>$recorded/stdin
    cat "${card%.card}.answers" >>$recorded/stdout
    echo ---- | tee -a $recorded/stdin >>$recorded/stdout
done
echo "$(grep -c '^----$' $recorded/stdin) cards, $(wc -l <$recorded/stdin) lines"
