#!/bin/sh
# Seconds and peak memory of judge with class models of 4,096 classes: of the model by itself, and with 20,000 objects.

here=$(dirname -- "$(readlink -f -- "$0")")
. "$here/measure.sh"

# Judges so many objects of a model of this shape.
judge() {
    python3 "$here/classes.py" "$1" "$2" "$room" || fail "no class model was written"
    measure "$room/measured" "$program" judge \
        "$room/model.json" "$room/delivery.json" "$root/examples/min-depth.code" >"$room/report"
    status=$?
    # (1 says only that the rule is undecided for objects without a depth)
    [ "$status" -le 1 ] || fail "judge ended with status $status: $(head -n 1 "$room/report")"
    read -r seconds memory <"$room/measured"
    awk -v shape="$1" -v n="$2" -v s="$seconds" -v m="$memory" -v r="$(tail -n 1 "$room/report")" \
        'BEGIN { printf "%s, %6d objects: %6.2f s, %7.1f MiB, %s\n", shape, n, s, m / 1024, r }'
}

for shape in chain flat pairs; do
    judge "$shape" 0
    judge "$shape" 20000
done
