#!/bin/sh
# A report of 1,000,000 lines beside one of a few lines, on the same delivery of 100,000 objects: seconds and peak memory. What
# the longer report takes more isn't what it holds, since it is written as it is made.

here=$(dirname -- "$(readlink -f -- "$0")")
. "$here/measure.sh"
python3 "$here/generate.py" 100000 >"$room/delivery.json" || fail "no delivery was written"

# rules TRUTH: ten rules for each object, all true or all false.
rules() {
    awk -v truth="$1" 'BEGIN { print "context KabelOfLeiding"; for (i = 0; i < 10; i++) print "  inv: " truth }'
}

# Judges by ten such rules.
judge() {
    rules "$1" >"$room/$1.rules"
    measure "$room/$1" "$program" judge --text \
        "$root/examples/catalogue.json" "$room/delivery.json" "$room/$1.rules" >"$room/report"
    status=$?
    [ "$status" -le 1 ] || fail "judge ended with status $status: $(head -n 1 "$room/report")"
    read -r seconds memory <"$room/$1"
    printf '%8d lines, %9d bytes: %s s, %d KiB\n' "$(wc -l <"$room/report")" "$(wc -c <"$room/report")" "$seconds" "$memory"
}

judge true
judge false
