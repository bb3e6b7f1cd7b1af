#!/bin/sh
# Nanoseconds a charge of judge, by instruction and length of its collections: of the instructions that are charged for
# going over collections, beside those of plain steps. What reading takes is measured by a code file without rules, and
# taken off; of each the best of three runs counts. Operands of unequal lengths must take no more than 30 ns a charge.

here=$(dirname -- "$(readlink -f -- "$0")")
. "$here/measure.sh"

# Judges what charges.py writes, and keeps the least seconds in the file named first.
judge() {
    kept=$1
    shift
    python3 "$here/charges.py" "$@" "$room" >"$room/charges" || fail "no code file was written"
    for run in 1 2 3; do
        measure "$room/$kept.$run" "$program" judge "$room/model.json" "$room/delivery.json" "$room/rules.code" >"$room/report"
        status=$?
        [ "$status" -le 1 ] || fail "judge ended with status $status: $(head -n 1 "$room/report")"
    done
    sort -n "$room/$kept".[1-3] | head -n 1 >"$room/$kept"
}

# An instruction, over collections of so many elements, and "mixed" where they stand in no order.
report() {
    judge reading --none ${3:+--mixed} "$1" "$2"
    judge whole ${3:+--mixed} "$1" "$2"
    awk -v name="$1${3:+, mixed}" -v n="$2" -v charges="$(cat "$room/charges")" 'NR == 1 { reading = $1 }
        NR == 2 { printf "%-19s %6d elements: %9d charges, %.2f s, of which reading %.2f s, %7.2f ns a charge\n",
                  name, n, charges, $1, reading, ($1 - reading) * 1e9 / charges }' "$room/reading" "$room/whole"
}

# An instruction of two collections, of so many elements and so many others, and "mixed".
unequal() {
    judge reading --none ${4:+--mixed} --beside "$3" "$1" "$2"
    judge whole ${4:+--mixed} --beside "$3" "$1" "$2"
    awk -v name="$1${4:+, mixed}" -v n="$2" -v m="$3" -v charges="$(cat "$room/charges")" 'NR == 1 { reading = $1 }
        NR == 2 { each = ($1 - reading) * 1e9 / charges
                  printf "%-19s %6d beside %6d: %9d charges, %.2f s, of which reading %.2f s, %7.2f ns a charge%s\n",
                  name, n, m, charges, $1, reading, each, (each > most ? ", too many" : "")
                  exit (each > most) }' most=30 "$room/reading" "$room/whole" || slow=1
}

slow=0
for instruction in EQ_SET EQ_BAG EQ_SEQUENCE INCALL EXCALL; do
    for n in 0 1 5 10 33 65; do
        unequal "$instruction" "$n" 100000
        unequal "$instruction" 100000 "$n"
        unequal "$instruction" "$n" 100000 mixed
        unequal "$instruction" 100000 "$n" mixed
    done
done
report plain 100
for n in 10 100 1000 10000 100000; do
    for instruction in INCLUDES COUNT SUM COLLECTFLAT; do
        report "$instruction" "$n"
    done
done
for n in 10 100 1000 4000; do
    for instruction in EQ_SET EQ_BAG EQ_SEQUENCE INCALL EXCALL ASSET ISUNIQUE; do
        report "$instruction" "$n"
    done
done
for n in 10 100 1000 10000 131072 131073; do
    for instruction in EQ_SET EQ_BAG INCALL EXCALL ASSET ISUNIQUE; do
        report "$instruction" "$n" mixed
    done
done
[ "$slow" = 0 ] || fail "operands of unequal lengths take more than 30 ns a charge"
