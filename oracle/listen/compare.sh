#!/bin/sh
# Holds a program that judges logs to judge.py: on cases.txt, the examples, what the gate runs, COUNT random lists from SEED on, all short
# lists, and what the recorded session cards come to; with NVX_SRC, also what 20,000 random cards from SEED on come to, as the Rust
# answers them. Prints how many lists there are of each verdict and how many the program answers otherwise, the first of these whole.
# Stops with 1 if there is one, if judge.py misses what is recorded, or if it refuses what a card comes to.
#     [NVX_SRC=FOLDER] oracle/listen/compare.sh PROGRAM SEED COUNT
set -e
program="$1" seed="$2" count="$3"
# The program is named from where the script was started.
case "$program" in */*) program="$(realpath "$program")" ;; esac
cd "$(dirname "$0")"
out=../target/listen
mkdir -p $out
wrong=0

# Runs both on the log $1 and says how their verdicts compare.
hold() {
    ./judge.py <"$out/$1.log" >$out/judge
    "$program" <"$out/$1.log" >$out/program || { wrong=1 && echo "$1: the program ends with a failure"; }
    paste $out/judge $out/program >$out/both
    awk -F '\t' -v name="$1" '
        { verdict = $1; sub(/^refused,/, "", verdict); sub(/,.*/, "", verdict); told[verdict]++ }
        $0 != $1 FS $1 { differ++ }
        END {
            printf "%s: %d lists, %d accepted, refused: %d by 45, %d by 4, %d by 5, %d by 3, %d by 30, %d by 10; %d differ\n", name, NR,
                told["accepted"], told["45"], told["4"], told["5"], told["3"], told["30"], told["10"], differ
        }
    ' $out/both
    first=$(awk -F '\t' '$0 != $1 FS $1 { print NR; exit }' $out/both)
    [ -n "$first" ] || return 0
    wrong=1
    LC_ALL=C awk -F , -v list="$first" '$1 == "limits" { at++ } at == list' "$out/$1.log"
    awk -F '\t' -v list="$first" 'NR == list { print "judge.py: " $1; print "program: " $2 }' $out/both
}

# The same, for lists that keep the rules.
hold_accepted() {
    hold "$1"
    if grep -v '^accepted,' $out/judge; then wrong=1; fi
}

awk '!/^#/ { for (i = 1; $i != "=>"; i++) print $i }' cases.txt >$out/cases.log
hold cases
awk '!/^#/ { print $NF }' cases.txt | diff - $out/judge || wrong=1

cat ../../examples/*.log >$out/examples.log
hold examples
cat ../../examples/*.verdict | diff - $out/judge || wrong=1

cp ../../crates/listen/stdin $out/gate.log
hold gate
diff ../../crates/listen/stdout $out/judge || wrong=1

./lists.py "$seed" "$count" >$out/random.log
hold random
./lists.py short >$out/short.log
hold short

set -- ../../crates/conformance/stdin ../../crates/conformance/stdout
for card in ../cards/*.card ../../examples/*.card; do
    set -- "$@" "$card" "${card%.card}.answers"
done
./cards.py "$@" >$out/cards.log
hold_accepted cards

if [ -n "$NVX_SRC" ]; then
    (cd .. && ./build.sh && sh -ec '. "$0" && tool generate' ./lib.sh)
    ../target/generate "$seed" 20000 >$out/made.cards
    ../target/oracle --ring --many <$out/made.cards >$out/made.answers
    ./cards.py $out/made.cards $out/made.answers >$out/made.log
    hold_accepted made
fi
exit $wrong
