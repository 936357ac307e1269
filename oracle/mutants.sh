#!/bin/sh
# Builds every mutant of the lists in mutants/ and finds the cards, of COUNT near and COUNT far
# ones from seed 1 on, whose answers it changes. Their seeds go to target/told/NAME, as `near SEED`
# or `far SEED`; target/told.txt has the number of each mutant's cards. With `sample` for COUNT
# the cards are those of the sample, known by their places, and the results go to target/told-sample.
# Stops with 1 if no card tells a mutant apart, or if one does that mutants/equivalent.txt says
# none can.
#     NVX_SRC=FOLDER oracle/mutants.sh [COUNT|sample [NAME...]]
set -e
. "$(dirname "$0")/lib.sh"
count="${1:-20000}"
[ $# -gt 0 ] && shift
for name in generate mutate compare; do tool "$name"; done
lay_out nanos nanos
compile nanos oracle64 "-C lto=fat"
if [ "$count" = sample ]; then
    part_sample
    cards=target/sample told=target/told-sample
else
    cards=target told=target/told
    for times in near far; do
        target/generate 1 "$count" $([ $times = near ] || echo --far) >"target/$times.cards"
        target/oracle64 --ring --many <"target/$times.cards" >"target/$times.answers"
    done
fi
rm -rf $told
mkdir -p $told target/mutants
: >$told.txt
# Builds the mutant $2 of the list $1, unless it is there, as it is, and newer than the oracle.
build() {
    target/mutate "$1" "$2" >target/mutant.edit
    newer=$(find lib.sh nvx src/main.rs src/answers.rs src/card.rs src/lines.rs src/ring.rs \
        src/session.rs -newer "target/mutants/$2" 2>/dev/null || echo all)
    [ -n "$newer" ] || ! cmp -s target/mutant.edit "target/mutants/$2.edit" || return 0
    lay_out mutant nanos
    target/mutate "$1" "$2" target/mutant/exec
    compile mutant "mutants/$2"
    mv target/mutant.edit "target/mutants/$2.edit"
}
wrong=0
for list in mutants/*.txt; do
    for name in $(target/mutate "$list"); do
        [ $# -eq 0 ] || case " $* " in *" $name "*) ;; *) continue ;; esac
        build "$list" "$name"
        for times in near far; do
            # A mutant that panics has told itself apart in the card where it stops.
            "target/mutants/$name" --ring --many <"$cards/$times.cards" \
                >target/mutant.answers 2>/dev/null || true
            target/compare --list "$cards/$times.answers" target/mutant.answers |
                awk -v times=$times '{ print times, $1 + 1 }' >>"$told/$name"
        done
        number=$(wc -l <"$told/$name")
        echo "$number $name" >>$told.txt
        case "$list $number" in
            mutants/equivalent.txt\ 0) rm "$told/$name" ;;
            mutants/equivalent.txt\ *) echo "told apart, against its reason: $name"; wrong=1 ;;
            *\ 0) echo "told apart by no card: $name"; wrong=1 ;;
        esac
    done
done
echo "$(wc -l <$told.txt) mutants, $(awk '$1 > 0' $told.txt | wc -l) told apart"
exit $wrong
