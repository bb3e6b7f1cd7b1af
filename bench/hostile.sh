#!/bin/sh
# Seconds and peak memory of judge with class models, deliveries and rule texts that are made to be slow, each beside its plain
# twin of the same size. An input is no trap if it takes at most four times the seconds of its twin, and twice its memory.

here=$(dirname -- "$(readlink -f -- "$0")")
. "$here/measure.sh"

# Judges so many objects of a model of this shape, or of its twin.
judge() {
    twin=$1
    shift
    python3 "$here/hostile.py" "$@" "$room" || fail "no class model was written"
    measure "$room/$twin" "$program" judge \
        "$room/model.json" "$room/delivery.json" "$root/examples/min-depth.code" >"$room/report"
    status=$?
    # (1 says only that the rule is undecided for objects without a depth)
    [ "$status" -le 1 ] || fail "judge ended with status $status: $(head -n 1 "$room/report")"
}

# A shape and so many objects, as it is made to be slow and as it is plain.
compare() {
    judge hostile "$1" "$2"
    judge plain --plain "$1" "$2"
    awk -v shape="$1" -v n="$2" 'NR == 1 { s = $1; m = $2 }
        NR == 2 { printf "%-8s %6d objects: %6.2f s, %7.1f MiB; plain: %6.2f s, %7.1f MiB; %.1f times the seconds\n",
                  shape, n, s, m / 1024, $1, $2 / 1024, s / ($1 > 0 ? $1 : 0.01) }' "$room/hostile" "$room/plain"
}

# Judges two cables by a text of this shape, or by its twin; most of these texts are refused.
judge_text() {
    twin=$1
    shift
    python3 "$here/hostile_texts.py" "$@" >"$room/rules" || fail "no rule text was written"
    measure "$room/$twin" "$program" judge --text "$root/examples/catalogue.json" "$root/examples/duct.json" "$room/rules" >"$room/report"
    status=$?
    [ "$status" -le 2 ] || fail "judge ended with status $status: $(head -n 1 "$room/report")"
}

# A shape of rule texts of so many bytes.
compare_text() {
    judge_text plain --plain "$1" "$2"
    judge_text hostile "$1" "$2"
    awk -v shape="$1" -v n="$2" -v said="$(head -n 1 "$room/report" | cut -c 1-40)" 'NR == 1 { s = $1; m = $2 }
        NR == 2 { printf "%-9s %8d bytes: %6.2f s, %7.1f MiB; plain: %6.2f s, %7.1f MiB; %.1f times the seconds; %s\n",
                  shape, n, s, m / 1024, $1, $2 / 1024, s / ($1 > 0 ? $1 : 0.01), said }' "$room/hostile" "$room/plain"
}

compare literals 0
compare literals 200000
compare owners 20000
compare chain 20000
compare couples 20000
compare depth 500000
compare renames 20000
compare olds 20000
for size in 100000 1000000 10000000; do
    for shape in bindings arguments chains names rules last comments strings context; do
        compare_text "$shape" "$size"
    done
done
