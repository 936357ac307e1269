#!/bin/sh
# Builds both programs and holds their answers to the recorded ones. late.card and the far sample
# are past the plain program's domain; without --ring, how far pending reaches is VecDeque's
# affair, so it is left out. To the cards with another smallest grant than 1 there are no answers of
# the Rust's: both have to say so.
set -e
. "$(dirname "$0")/lib.sh"
./build.sh
part_sample

# Holds the answers to the cards in $1 to those in $2, with the flags in $3; $4 is near or far.
hold() {
    target/oracle64 --ring $3 <"$1" | cmp - "$2"
    [ "$4" = near ] || return 0
    target/oracle --ring $3 <"$1" | cmp - "$2"
    grep -v ,pending, "$2" >target/rest
    target/oracle $3 <"$1" | grep -v ,pending, | cmp - target/rest
}

# Holds the programs to having no answers to the card in $1.
hold_left_out() {
    for oracle in oracle oracle64; do
        status=0
        target/$oracle <"$1" >target/rest 2>&1 || status=$?
        [ $status = 3 ] || { echo "$oracle ends with $status on $1" && exit 1; }
    done
    echo "left out, as the Rust grants every unit at once: $1"
}

for card in $answered; do
    [ "$card" = cards/late.card ] && times=far || times=near
    hold "$card" "${card%.card}.answers" "" $times
done
for card in $defined; do
    # What refuses the first line is not the Rust's, so the oracle answers it.
    case "$card" in
        */refused.card) hold "$card" "${card%.card}.answers" --many near ;;
        *) hold_left_out "$card" ;;
    esac
done
hold ../crates/session/stdin ../crates/session/stdout "" near
for times in near far; do
    hold target/sample/$times.cards target/sample/$times.answers --many $times
done
echo "every card answered as recorded"
