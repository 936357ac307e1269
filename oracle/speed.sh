#!/bin/sh
# Times a program that reads a session card beside the oracle, on cards of 300,000 lines: output,
# credit and message in turn, with 4, 64 and 1,024 bytes. The two run by turns, RUNS times each
# (default 11), and must answer alike. Prints the median of each in lines a second, and the oracle's
# time for one of the program's.
#     NVX_SRC=FOLDER oracle/speed.sh PROGRAM [RUNS]
set -e
from="$PWD"
. "$(dirname "$0")/lib.sh"
program="$1" runs="${2:-11}"
# The program is named from where the script was started.
case "$program" in */*) program="$(cd "$from" && realpath "$program")" ;; esac
./build.sh
lines=300000

# The nanoseconds that a command takes on the card, appended to the file $1.
took() {
    file="$1"
    shift
    began=$(date +%s%N)
    "$@" <target/speed.card >"$file.answers"
    echo $(($(date +%s%N) - began)) >>"$file.times"
}

median() {
    sort -n "$1.times" | sed -n "$(((runs + 1) / 2))p"
}

for bytes in 4 64 1024; do
    LC_ALL=C awk -v bytes=$bytes -v lines=$lines 'BEGIN {
        print "open,0,7,2,16384,B,16384,B,4294967295,0,-,10,5\nlaunched,0,-,-\nmessage,1024\nmessage,1024"
        for (i = 0; i < bytes; i++) payload = payload sprintf("%02x", (i * 37 + 1) % 256)
        for (n = 4; n < lines; n++)
            if (n % 3 == 1) print "output,Stdout," payload
            else if (n % 3 == 2) print "credit,7,2,Stdout," bytes
            else print "message,1024"
    }' >target/speed.card
    rm -f target/speed.*.times
    run=0
    while [ $run -lt "$runs" ]; do
        took target/speed.program "$program"
        took target/speed.oracle target/oracle --ring
        run=$((run + 1))
    done
    cmp target/speed.program.answers target/speed.oracle.answers
    awk -v bytes=$bytes -v lines=$lines -v ours="$(median target/speed.program)" \
        -v rust="$(median target/speed.oracle)" 'BEGIN {
        printf "%d bytes: %.0f lines a second, the oracle %.0f; ratio %.2f\n", bytes,
            lines / ours * 1e9, lines / rust * 1e9, rust / ours
    }'
done
