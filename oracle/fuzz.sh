#!/bin/sh
# Feeds a program that reads a session card LINES lines of damaged cards, long lines and random
# bytes, and holds its answers to the form of the card and to the oracle with u64 time. Stops with
# 1 at the first input that is answered wrongly, and leaves it in target/fuzz.card.
#     NVX_SRC=FOLDER oracle/fuzz.sh LINES SEED PROGRAM [ARGUMENT...]
set -e
from="$PWD"
. "$(dirname "$0")/lib.sh"
lines="$1" seed="$2" program="$3"
shift 3
# The program is named from where the script was started.
case "$program" in */*) program="$(cd "$from" && realpath "$program")" ;; esac
./build.sh
for name in generate fuzz; do tool "$name"; done
{
    target/generate "$seed" 5000
    target/generate "$seed" 5000 --far
} >target/fuzz.cards
target/fuzz "$lines" "$seed" target/oracle64 "$program" "$@" <target/fuzz.cards
